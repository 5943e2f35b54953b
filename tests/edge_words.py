"""Opcodes 13 and 14 (02, S-2), which load and store four bytes, at the edges of the rules; edge_runs.py writes them with the other scenarios."""
from edge_parts import ADD, BACK, HALT, JUMP, LISTEN, LOAD, LOAD_WORD, SET, STORE, STORE_WORD, SUB, WAIT
from edge_parts import BENCH, DEMO, FULL, HIGH, SAVE, SELF, SHARED, TOP, add, bench, code, policy, save

# Segments of 1, 3, 4 and 5 bytes, one behind the other, so that a byte too many lies in the next.
SMALL = policy([(0, 64), (64, 44), (200, 1), (201, 3), (204, 4), (208, 5)], [(0, 1)], [(0, 0, "r")] + [(0, s, "rw") for s in range(2, 6)], [(0, 9)])
# Segment 2 at the start of memory, 3 at its end.
ENDS = policy([(1000, 64), (64, 44), (0, 16), (16368, 16)], [(0, 1)], [(0, 0, "r"), (0, 2, "rw"), (0, 3, "rw")], [(0, 9)])
# 256 bytes to read, and 256 to write.
COPY = policy([(0, 64), (64, 44), (256, 256), (1024, 256)], [(0, 1)], [(0, 0, "r"), (0, 2, "r"), (0, 3, "w")], [(0, 1000)])

# Four bytes that differ, and the highest bit.
WORD = 0xF1E2D3C4
R = {0: 0x01020304, 1: 6, 2: WORD, 3: 0x80000000, 4: TOP, 5: 12, 6: 13, 7: 300}


def tries(name, text, instructions, offsets, *looks, at=0, save_at=SAVE, place=(0, 0)):
    """Each instruction at each offset, one after another in one memory. The offset is in r7, beside the counter; a load goes to r6, a store comes from r5.
    Offsets that must fault stand first: after a store that acts, a wrong one of the same bytes might not show."""
    s = add(name, text).start().write(save_at, save({5: WORD, 6: 0x01020304})).at(*place)
    for i in instructions:
        s.write(at, i)
        for offset in offsets:
            s.write(save_at + 28, offset.to_bytes(4, "little") + bytes(4)).run(1).look(save_at + 24, 12)
            for look in looks:
                s.look(*look)
    return s


def load(segment):
    return LOAD_WORD(6, 7, segment)


def store(segment):
    return STORE_WORD(5, 7, segment)


def add_words():
    # Offsets: the length is 16. Large ones come round when four is added at 32 bits, or are small when cut to 8, 16 or 31.
    for name, i in [("load-word", load(2)), ("store-word", store(2))]:
        tries(name + "-inside", BENCH, [i], (0, 12, 4, 8, 1, 2, 3, 5, 11), (199, 18))
        tries(name + "-past", BENCH, [i], (13, 14, 15, 16, 17, 20, 256)).look(199, 22)
        tries(name + "-large", BENCH, [i], (TOP, TOP - 1, TOP - 2, TOP - 3, TOP - 4, 65536, 65532, 65548, 0x7FFFFFFC, 0x80000000, 0x8000000C)).look(196, 24)
        tries(name + "-of-4096", HIGH, [i], (4093, 4095, 4096, TOP - 3, 65536, 65536 + 4092, 4092, 0, 255), at=12288, save_at=1).look(8191, 5).look(12283, 6)
    tries("load-word-last-of-memory", HIGH, [load(0)], (4093, 4094, 4095, 4096, TOP, TOP - 3, 4092, 0), at=12288, save_at=1).look(16380, 4)
    for segment, length in enumerate((1, 3, 4, 5), 2):
        tries("word-of-%d" % length, SMALL, [load(segment), store(segment)], (TOP, TOP - 1, TOP - 2, TOP - 3, 3, 2, 1, 0)).look(199, 15)
    tries("word-at-start-of-memory", ENDS, [load(2), store(2)], (TOP, TOP - 3, 13, 12, 1, 0), at=1000).look(0, 17).look(16380, 4)
    tries("word-at-end-of-memory", ENDS, [load(3), store(3)], (TOP, TOP - 3, 13, 15, 11, 12), at=1000).look(0, 4).look(16367, 17)

    # Values: little-endian, nothing stays of the register, nothing beside the four bytes changes.
    s = add("load-word-values", BENCH).write(0, code(LOAD_WORD(4, 1, 3), JUMP(2, 0))).start().write(SAVE, save(R))
    for data in ([0, 0, 0, 0], [1, 0, 0, 0], [0, 0, 0, 128], [255, 255, 255, 255], [0, 255, 0, 0], [196, 211, 226, 241]):
        s.write(306, data).run(2).look(SAVE, 44)
    bench("store-word-values", *[STORE_WORD(r, 1, 6) if r else ADD(1, 1, 5) for r in (2, 0, 3, 0, 4, 0)], n=6, registers={**R, 1: 0, 5: 5}).look(599, 46)
    bench("load-word-each", *[LOAD_WORD(r, r, 6) for r in range(8)], n=8, registers={r: 5 * r for r in range(8)}).look(600, 44)
    bench("store-word-each", *[STORE_WORD(r, r, 6) for r in range(8)], n=8, registers={r: 5 * r for r in range(8)}).look(599, 46)
    bench("load-word-its-offset", LOAD_WORD(1, 1, 2), LOAD_WORD(1, 1, 2), n=2, registers=R).look(206, 4)
    bench("store-word-its-offset", STORE_WORD(5, 5, 2), STORE_WORD(6, 6, 2), n=2, registers=R).look(199, 18)
    bench("words-overlap", STORE_WORD(2, 1, 2), STORE_WORD(2, 0, 2), LOAD_WORD(3, 1, 2), n=3, registers={**R, 0: 8}).look(199, 18)
    bench("words-and-bytes", STORE_WORD(2, 1, 2), STORE(4, 0, 2), LOAD_WORD(3, 1, 2), LOAD(4, 1, 2), n=4, registers={**R, 0: 7}).look(199, 18)

    # Rights, fault 3 before fault 4: segment 0 is the own code, 1 the own save segment, 7 isn't there.
    for segment in range(8):
        tries("word-rights-%d" % segment, BENCH, [load(segment), store(segment)], (TOP, 41, 13, 12))
    # c from far above the segments' number, 7, down to the last. 66 and 34 are 2 modulo 32, 38 is 6.
    tries("word-segments", BENCH, [i(c) for i in (load, store) for c in (255, 66, 64, 63, 38, 34, 32, 31, 8, 7, 6)], (0,))
    # All 32 are there. Partition 7 has r on 22, rw on 23, w on 31, which has one byte; 55 and 63 are 23 and 31 modulo 32.
    full = [i(c) for i in (load, store) for c in (255, 64, 63, 55, 32, 31, 30, 24, 7, 22, 23)]
    tries("word-segments-full", FULL, full, (0,), at=4376, save_at=408, place=(31, 0))
    add("word-other-save", DEMO).write(0, LOAD_WORD(0, 1, 3)).write(128, STORE_WORD(0, 1, 1)).start().run(5).look(64, 44).look(192, 44)
    add("word-other-code", DEMO).write(0, LOAD_WORD(0, 1, 2)).write(128, STORE_WORD(0, 1, 0)).start().run(5).look(64, 44).look(192, 44).look(0, 4)
    add("word-write-right-alone", DEMO).write(0, LOAD_WORD(0, 1, 4)).write(128, STORE_WORD(0, 1, 4)).start().run(5).look(64, 44).look(192, 44).look(256, 4)
    s = add("store-word-12-and-13", DEMO).write(0, code(SET(1, 12), STORE_WORD(1, 1, 4), SET(1, 13), STORE_WORD(1, 1, 4))).start()
    s.run(3).run(2).run(3).look(64, 44).look(255, 18)

    # Faults 1 and 2 before them.
    for name, i in [("load-word", LOAD_WORD), ("store-word", STORE_WORD)]:
        bad = [(8, 7, 255), (6, 8, 255), (255, 255, 255), (8, 7, 5), (6, 255, 1), (8, 7, 2), (255, 7, 2), (6, 8, 2), (6, 255, 2)]
        tries(name + "-register-first", BENCH, [i(*abc) for abc in bad], (TOP, 0))
        bench(name + "-counter-60", i(2, 1, 2), registers=R, counter=60).look(199, 18).run(1).look(SAVE, 44)
        bench(name + "-counter-61", i(8, 8, 255)[:3], registers=R, counter=61)
        bench(name + "-counter-odd", i(2, 1, 2), registers=R, counter=7).look(199, 18)
        bench(name + "-in-handler", i(2, 1, 2), i(0, 1, 5), n=2, registers=R, inside=1).look(199, 18)

    # Interrupts: the instruction runs only after the handler.
    for name, i in [("load-word", LOAD_WORD(2, 1, 2)), ("store-word", STORE_WORD(2, 1, 2))]:
        s = bench(name + "-interrupted", i, HALT, registers=R, pended=6, enabled=4, handler=40).write(40, code(LOAD_WORD(3, 5, 3), STORE_WORD(3, 5, 2), BACK))
        for _ in range(5):
            s.look(199, 18).run(1).look(SAVE, 44)
    s = add("wait-woken-for-a-word", BENCH).write(0, code(LISTEN(8, 20), WAIT, STORE_WORD(7, 1, 2), HALT))
    s.write(20, code(LOAD_WORD(1, 0, 0), STORE_WORD(1, 0, 2), SUB(1, 1, 1), BACK)).start().run(5)
    s.pend(0, 3).run(1).look(SAVE, 44).run(2).look(SAVE, 44).look(199, 18).run(10).look(SAVE, 44).look(199, 18)

    # Code: loaded, and changed before, at and behind the storing instruction, which acts as it was fetched.
    bench("load-word-own-code", LOAD_WORD(2, 3, 0), LOAD_WORD(4, 5, 0), LOAD_WORD(6, 7, 0), n=3, registers={3: 0, 5: 60, 7: 61}).look(60, 4)
    add("store-word-own-code-r-alone", DEMO).write(0, STORE_WORD(0, 1, 0)).start().run(1).look(64, 44).look(0, 4)
    next_ = code(SET(1, 20), LOAD_WORD(0, 1, 0), SET(1, 16), STORE_WORD(0, 1, 0), HALT, SET(2, 77), HALT)
    add("store-word-next-instruction", SELF).write(0, next_).start().run(5).look(0, 28).look(64, 44).run(2).look(64, 44)
    for offset in range(9):  # 9 is jump r0 to 0, which at offset 4 stands in place of the store.
        s = add("store-word-own-code-%d" % offset, SELF).write(0, code(ADD(3, 3, 0), STORE_WORD(0, 1, 0), ADD(2, 2, 0))).start()
        s.write(SAVE, save({0: 9, 1: offset})).run(2).look(0, 12).look(64, 44).run(2).look(0, 12).look(64, 44)
    s = add("store-word-shared-code", SHARED).write(0, code(LOAD_WORD(0, 1, 0), STORE_WORD(0, 2, 0), HALT)).start()
    s.write(SAVE, save({1: 8, 2: 4})).run(3).look(64, 44).run(4).look(0, 12).look(128, 44)
    s = add("word-handed-on", DEMO).write(0, code(LOAD_WORD(0, 1, 0), STORE_WORD(0, 2, 4), HALT)).write(128, code(LOAD_WORD(3, 4, 4), HALT)).start().write(68, [5])
    s.run(3).look(255, 18).run(2).look(192, 44).look(64, 44)

    # 256 bytes copied, the last ones first. Two ticks before the loop, four in each round (sub, load, store, jump), and the halt: by bytes there are 256
    # rounds, 2 + 256 × 4 + 1 = 1,027 ticks; by words 64 rounds, 2 + 64 × 4 + 1 = 259 ticks.
    for name, step, get, put, ticks in [("copy-bytes", 1, LOAD, STORE, 1027), ("copy-words", 4, LOAD_WORD, STORE_WORD, 259)]:
        s = add(name, COPY).write(0, code(SET(1, 256), SET(2, step), SUB(1, 1, 2), get(0, 1, 2), put(0, 1, 3), JUMP(1, 8), HALT)).start()
        s.run(ticks - 1).look(SAVE, 44).run(1).look(SAVE, 44).look(256, 256).look(1023, 258)
