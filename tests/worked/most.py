"""The most pages, copies and counts that there may be, in each place of a message, a line or a row."""
from ipp import Tag, record
from worked.played import Play
from worked.states import KINDS, bring

MOST_COUNTED = 100_000_000

with Play("most pages and last sequence number in each kind of report") as play:
    play.grant("f24,alice,1000")
    taken = {"start": "pending", "stop": "processing", "resume": "stopped", "count": "completed", "done": "processing"}
    numbers = [(kind, bring(play, taken.get(kind, "stopped")), bring(play, "held")) for kind in KINDS]
    for kind, begun, held in numbers:
        for number, answer in [(begun, "ok"), (held, "refused 3 state")]:
            play.dev(f"{number} 2147483648 {kind} {MOST_COUNTED}", "refused 4 range")
            play.dev(f"{number} 2147483647 {kind} {MOST_COUNTED + 1}", "refused 4 range")
            for _ in range(2):
                play.dev(f"{number} 2147483647 {kind} {MOST_COUNTED}", answer)
        play.look(begun, "job-state", "job-impressions-completed")
        play.release(held, code=0x0404)
    assert play.free() == 1000 - 7 * MOST_COUNTED

with Play("most copies of most pages") as play:
    play.grant("\r".join(f"f{row},alice,1000000" for row in range(99)), "new 99 repeats 0")
    number = play.print_job(record(Tag.INTEGER, "job-impressions", 100_000), job=[record(Tag.INTEGER, "copies", 999)])
    play.release(number, code=0x0404)
    play.grant("near,alice,899999", "new 1 repeats 0")
    play.release(number, code=0x0404)
    play.grant("last,alice,1", "new 1 repeats 0")
    play.release(number)
    play.find_free()
    play.report(number, "start")
    play.report(number, "stop", 99_900_000)
    play.find_free()
    play.report(number, "resume", MOST_COUNTED)
    play.report(number, "done")
    play.look(number)
    play.grant("back,alice,100000", "new 1 repeats 0")
    play.find_free()
