"""The checks of the new form, MPB2: lengths and places, reading and writing, the old form of a run, and the same answers."""
from boundary import (FILE, FILE_2, FURTHER, GRID, KEPT, ROLL, RUN, RUN_2, UNIT, answers_of_grid, asked_of_grid, beyond, file_of,
                      in_new_form, lent, opened, places, position, same, sample, worsening)

AGE_P, BIRTH_P, TAIL = 1733, 4416, 4954


def check_runs(e):
    run = in_new_form(sample())
    same("an accepted run in the new form", places(e.check_basis(run)), (0, 0, 0))
    for length in (0, RUN - 1, RUN + 1, FILE, RUN_2 - 1, RUN_2 + 1, FILE_2):
        same(f"a run of {length}", places(e.check_basis(run[:length].ljust(length, b"\0"))), (1, 0, 0))
    same("the old form's mark", places(e.check_basis(b"MPB1" + run[4:])), (4, 3, 0))
    same("the new form's mark", places(e.check_basis(run[:RUN])), (4, 3, 0))
    for offset in (TAIL, RUN_2 - 2):
        same("the tail", places(e.check_basis(in_new_form(sample(), [(offset, 256)]))), (4, offset + 1, 0))
    for offset in (AGE_P, AGE_P + 260, BIRTH_P, BIRTH_P + 536):
        same("the greatest P", places(e.check_basis(in_new_form(sample(), [(offset, 15_000)]))), (0, 0, 0))
        same("a P above it", places(e.check_basis(in_new_form(sample(), [(offset, 15_001)]))), (5, offset, 0))
    same("the tail before a P", places(e.check_basis(in_new_form(sample(), [(AGE_P, 15_001), (TAIL, 1)]))), (4, TAIL, 0))


def check_files(e):
    run = in_new_form(sample(), [(AGE_P, 6_237)])
    file, back = lent(FILE_2 + FURTHER), lent(RUN_2 + FURTHER)
    same("room for a file", places(e.write_basis(run, file, FILE_2 - 1)), (11, FILE_2, 0))
    same("room of another length", places(e.write_basis(run[1:], file, FILE - 1)), (11, FILE, 0))
    same("another length", places(e.write_basis(run[1:], file, FILE)), (1, 0, 0))
    same("unchanged by refusals", bytes(file), bytes([KEPT]) * len(file))
    same("a file", places(e.write_basis(run, file, len(file))), (0, 0, 0))
    same("its bytes", bytes(file), file_of(run) + bytes([KEPT]) * FURTHER)
    good = file_of(run)
    same("room for a run", places(e.read_basis(good, back, RUN_2 - 1)), (11, RUN_2, 0))
    same("room for a file of 5,060", places(e.read_basis(good[:RUN_2], back, RUN - 1)), (11, RUN, 0))
    same("a file of 5,060", places(e.read_basis(good[:RUN_2], back, len(back))), (1, 0, 0))
    same("a wrong check", places(e.read_basis(good[:-5] + b"\1" + good[-4:], back, len(back))), (2, 9, 0))
    same("unchanged by refusals", bytes(back), bytes([KEPT]) * len(back))
    same("a run", places(e.read_basis(good, back, len(back))), (0, 0, 0))
    same("its bytes", bytes(back), run + bytes([KEPT]) * FURTHER)


def check_old_forms(e):
    old = beyond()
    file = lent(FILE + FURTHER)
    for refusal, run, room in (((11, FILE, 0), in_new_form(old), FILE - 1), ((11, FILE, 0), b"", 0), ((1, 0, 0), in_new_form(old)[1:], FILE),
                               ((17, BIRTH_P + 536, 0), in_new_form(old, [(BIRTH_P + 536, 1)]), FILE),
                               ((17, AGE_P, 0), in_new_form(old, [(BIRTH_P + 536, 1), (AGE_P, 5_050)]), FILE),
                               ((5, BIRTH_P, 0), in_new_form(old, [(BIRTH_P, 15_001), (AGE_P, 5_050)]), FILE),
                               ((4, TAIL, 0), in_new_form(old, [(TAIL, 1), (BIRTH_P, 15_001), (AGE_P, 5_050)]), FILE)):
        same("no old form", places(e.write_old_form(run, file, room)), refusal)
    same("unchanged by refusals", bytes(file), bytes([KEPT]) * len(file))
    for run in (in_new_form(old), old):
        same("an old form", places(e.write_old_form(run, file, len(file))), (0, 0, 0))
        same("its bytes", bytes(file), file_of(old) + bytes([KEPT]) * FURTHER)
        file = lent(FILE + FURTHER)


def check_short_forms(e):
    short, old = lent(RUN_2 + FURTHER), lent(RUN)
    run = in_new_form(beyond(), [(AGE_P, 6_237)])
    same("room for a short form", places(e.short_form(run, 1, short, RUN_2 - 1)), (11, RUN_2, 0))
    same("a rate beyond", places(e.short_form(run, 200_000_001, short, RUN_2)), (5, 1078, 0))
    same("unchanged by refusals", bytes(short), bytes([KEPT]) * len(short))
    same("a short form", places(e.short_form(run, 10_000_000, short, len(short))), (0, 0, 0))
    same("the old form's", places(e.short_form(beyond(), 10_000_000, old, RUN)), (0, 0, 0))
    same("its bytes", bytes(short), in_new_form(bytes(old)) + bytes([KEPT]) * FURTHER)


def check_answers(e):
    for old in (sample(addition=10_000_000), worsening(), beyond()):
        new = in_new_form(old)
        for question in ((60, 2006), (60, 2010), (148, 2130), (19, 2010), (60, 2131)):
            for name in ("improvement", "factor", "rate"):
                one, other = (getattr(e, name)(run, *question) for run in (new, old))
                same(f"{name} {question}", (one.value, places(one.refusal)), (other.value, places(other.refusal)))
        records = [asked_of_grid([(148, 0, 2006), (60, 2, 2010), (149, 1, 2130), (151, 0, 2010)]) for _ in range(2)]
        for run, list_ in zip((new, old), records):
            same("a grid", places(e.grid(run, list_, GRID)), (0, 0, 0))
        same("its answers", *(answers_of_grid(list_, GRID) for list_ in records))

    # What remains of 0.01 after 10 of 40 years is 900 x (400,000 + (8P - 20,000) x 10) / 640,000,000.
    slow = sample(initial=20_000_000, long_term=10_000_000, period=40)
    for p, value in ((5_000, 18_437_500), (5_025, 18_465_625), (1, 12_813_625), (256, 13_100_500)):
        same(f"P {p}", e.improvement(in_new_form(slow, [(AGE_P + 2 * 40, p)]), 60, 2016).value, value)

    new = in_new_form(sample())
    line = e.lifeline_step(new, 148, 2010, UNIT + 1)
    same("the lifeline's place", (position(line), places(line.refusal)), ((148, 2010, UNIT + 1, 0), (5, RUN_2, 0)))
    roll = opened(e, 2010)
    same("a join", e.roll_join(new, roll, ROLL, 1001, 148, 100).value, 271)


def check_forms(e):
    check_runs(e)
    check_files(e)
    check_old_forms(e)
    check_short_forms(e)
    check_answers(e)
