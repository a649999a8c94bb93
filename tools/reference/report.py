"""The report of a run: glass_engine/specs/Report.antt, over the lines of report_text/specs/Lines.antt."""
from reference.words import table
from reference.opening import slots_of
from reference.epoch import is_recorded, measured_from, record_at, serial, slot_at
from reference.plain import spin_digits
from reference.positions import floor_of, uneven_record
from reference.uneven import all_ready


def kind_text(rule):
    return rule


def header_line(plan, samples, first, to):
    return (f"glass 1 size={plan.size} slots={slots_of(plan)} samples={samples} rule={kind_text(plan.rule)} "
            f"from={first} to={to}\n")


def row_line(epoch, sample, slot, values):
    return (f"row,{epoch},{sample},{slot},{values.first_energy},{values.second_energy},{values.overlap},"
            f"{values.first_replica},{values.second_replica}\n")


def end_line(epoch):
    return f"end,{epoch}\n"


def spins_head(sample, slot, copy):
    return f"spin,{sample},{slot},{copy},"


def spins_line(l, sample, slot, copy, spins):
    return spins_head(sample, slot, copy) + spin_digits(l, spins) + "\n"


def sample_rows(epoch, sample, records):
    return "".join(row_line(epoch, sample, t, record_at(records, t)) for t in range(len(records)))


def epoch_rows(measured, samples, f):
    return "".join(sample_rows(f, b, measured(b, f)) for b in range(samples))


def rows_in_order(measured, samples, every, c, e):
    return "".join(epoch_rows(measured, samples, f) for f in range(c, e) if is_recorded(every, f))


def slot_spins(l, sample, t, slot):
    return spins_line(l, sample, t, 0, slot.first.spins) + spins_line(l, sample, t, 1, slot.second.spins)


def sample_spins(plan, sample, slots):
    return "".join(slot_spins(plan.size, sample, t, slot_at(slots, t)) for t in range(slots_of(plan)))


def all_spins(plan, samples, contents):
    return "".join(sample_spins(plan, b, contents(b)) for b in range(samples))


def uneven_measured(plan, states, pending, samples, every, b, f):
    return table(lambda t: uneven_record(plan, states, pending, samples, every, b, f, t), slots_of(plan))


def all_rest(e, ends):
    return all(not p.waits and p.epoch == e for p in ends)


def uneven_report(plan, states, pending, samples, every, spins, until, ends):
    first, to = floor_of(states(0).positions), floor_of(ends)
    rows = rows_in_order(lambda b, f: uneven_measured(plan, states, pending, samples, every, b, f), samples, every, first, to)
    text = header_line(plan, samples, first, to) + rows + end_line(to)
    if spins and all_rest(until, ends):
        text += all_spins(plan, samples, lambda b: all_ready(plan, states(b), until).slots)
    return text


def report(plan, start, samples, every, spins, e):
    text = (header_line(plan, samples, start(0).epoch, e)
            + rows_in_order(lambda b, f: measured_from(plan, start, b, f), samples, every, start(0).epoch, e) + end_line(e))
    if spins:
        text += all_spins(plan, samples, lambda b: serial(plan, start(b), e).slots)
    return text
