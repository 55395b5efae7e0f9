"""The slips that beginners make, each in a small job, and what explain has to say of it."""
from toolkit import job_of_deck, side_by_side

READER = "DEVICE 2 TR\n+ABCDEFGHIJKLMNOP\nDEVICE 3 LP\n"
CARDS = "DEVICE 4 CR\n+12345678\nDEVICE 5 LP\n"
READS = "PROGRAM V0; V0 = Q0/32/33;\n SET 2; SET 5; OUT; V0; =Q1; =C1;\n PRQ1; E32;\n ZERO; OUT; FINISH;"
TAKES_TWO = "PROGRAM V0; V0 = Q0/32/41;\n SET 4; SET 5; OUT; V0; =Q1; =C1; SET 3; SET 5; OUT; ERASE;\n"


def job(deck, devices="", schedule="ORDERS 40\n", store=64):
    """A job of this deck, with these devices and this schedule; line 5 is the first of the deck."""
    return f"KDF9 JOB 1\nSLOT 0\nSTORE {store}\nDECK\n{deck}\nENDDECK\n{devices}SCHEDULE\n{schedule}ENDJOB\n"


PLAIN = job("PROGRAM; ZERO; OUT; FINISH;")

# The slip, the job that has it, and what explain says of it.
SLIPS = [
    ("DUPP", job("PROGRAM; SET 1; DUPP; FINISH;"), ["-:5:17: UnknownOrder: DUPP", "hint: did you mean DUP or DUPD?"]),
    ("PROGRAMME", job("PROGRAMME V0; FINISH;"), ["-:5:1: ", "hint: the main part begins with PROGRAM;"]),
    ("STOP", job("PROGRAM; SET 1; STOP; FINISH;"), ["-:5:17: UnknownOrder: STOP", "hint: ZERO; OUT; ends a program"]),
    ("1:", job("PROGRAM;\n1: SET 1; J1; FINISH;"), ["-:6:1: UnknownOrder", "hint: a reference is a number and a semicolon: 1;"]),
    (
        "a loop's counter too large", job("PROGRAM V0; V0 = Q-13/3/0;\nV0; =Q1;\n1; DC1; J1C1NZ; ZERO; OUT; FINISH;"),
        ["-:7:", "it is in a loop: it was here 2 orders earlier; C1 = 65504, and was 65505 then"],
    ),
    (
        "TR for CR in DEVICE", job(TAKES_TWO + "ZERO; OUT; FINISH;", READER),
        ["-:6:16: CLAIM: OUT", "OUT 5 needs a card reader, CR; the slot has TR 2 and LP 3"],
    ),
    (
        "END 12 for END 2", job(READS, READER, "ORDERS 40\nEND 12\nORDERS 10\n"),
        ["-:7:8: LIVE: E32", "the transfer of device 2 began at call 8, and the schedule has no END 2 after it", "line 15, END 12: no slot has device 12; did you mean END 2?"],
    ),
    ("ENDJOB left out", PLAIN.replace("ENDJOB\n", ""), ["hint: ENDJOB is missing"]),
    ("ENDDECK left out", PLAIN.replace("ENDDECK\n", ""), ["hint: ENDDECK is missing"]),
    ("small letters", job("PROGRAM; zero; OUT; FINISH;"), ["hint: lowercase letters aren't allowed here; write ZERO"]),
    ("a small first line", PLAIN.lower(), ["-:1:1: Header: kdf9 job 1", "lowercase letters aren't allowed here; write KDF9 JOB 1"]),
    ("a blank first line", "\n" + PLAIN, ["-:1:1: Header", "nothing may come before it, not even a blank line"]),
    ("a byte-order mark", "\xef\xbb\xbf" + PLAIN, ["-:1:1: Header", "begins with a byte-order mark"]),
    (
        "another label", job("PROGRAM V0; V0 = PWATER;\n V0; SET 4; OUT; ZERO; OUT; FINISH;", "DEVICE 7 MT WINE\n+A\nDEVICE 8 LP\n"),
        ["-:6:13: CLAIM: OUT", 'OUT 4 looks for an unclaimed tape with the label "WATER"; the slot has MT 7 WINE and LP 8'],
    ),
    ("SHOW out of range", PLAIN.replace("SCHEDULE", "SHOW 3 64\nSCHEDULE"), ["-:7:6: ShowRange: SHOW 3 64", "hint: the store has words 0 to 63"]),
    ("no END at all", job(READS, READER), ["-:7:8: LIVE: E32", "it needs group 1", "the schedule has no END 2 after it"]),
    ("STORE too small for an area", job(READS.replace("32/33", "64/64"), READER), ["-:7:2: LIV: PRQ1", "Q1 is 2/64/64; the store has words 0 to 63"]),
    ("an address beyond the store", job("PROGRAM; SET 96; =M2; M0M2; FINISH;"), ["-:5:23: LIV: M0M2", "M0 + M2 = 96; the store has words 0 to 63"]),
    ("a store beyond the store", job("Y3; PROGRAM; SET 90; =M2; Y2M2; FINISH;"), ["LIV: Y2M2", "Y2 is word 5, and M2 = 90, which gives 95; the store has words 0 to 63"]),
    ("LPQ1 with Q1 of the card reader", job(TAKES_TWO + "LPQ1; FINISH;", CARDS), ["CLAIM: LPQ1", "Q1 names device 4, a card reader; LPQ1 needs a line printer"]),
    ("OUT's operands exchanged", job("PROGRAM; SET 5; SET 4; OUT; FINISH;", CARDS), ["CLAIM: OUT", "label 5, which is a number: for a card reader write SET 4; SET 5; OUT"]),
    ("OUT's operands exchanged, for a reader", job("PROGRAM; SET 5; SET 2; OUT; FINISH;", READER), ["OUT: OUT", "OUT 2 isn't one of 0, 3, 4, 5, 6, 8 and 9; did you mean OUT 5? The number goes on top, and here 5 is in N2"]),
    (
        "an area in the group of the program's own code", job(READS.replace("32/33", "2/16"), READER),
        ["-:7:8: LIVE: E32", "it needs group 0: words 0 to 31 hold this order, and are locked out by a transfer", "no END 2 after it"],
    ),
    (
        "EXIT into a constant", job("PROGRAM V3; V3 = 5;\n SET 4; =LINK;\n EXIT; FINISH;"),
        ["-: LIV: the next order of slot 0 is at syllable 0 of word 4, in V3; no statement wrote it", "V3 = 5 is a constant, not an order", "the order before it was EXIT, at -:7:2"],
    ),
    ("no ZERO; OUT;", job("Y0; PROGRAM;\n SET 1; =Y0;\nFINISH;"), ["-: LIV: ", "it ran past =Y0, the last statement there", "ZERO; OUT; at the end"]),
    (
        "no =C1 before PRQ1", job(READS.replace(" =C1;", " ERASE;"), READER),
        ["-:7:2: CLAIM: PRQ1", "Q1 is 0/32/33, and its counter names device 0; the slot has TR 2 and LP 3; did you forget =C1?"],
    ),
    (
        "a slot that never had its turn", job("PROGRAM; 1; J1; FINISH;").replace("SCHEDULE", "SLOT 3\nSTORE 32\nDECK\nPROGRAM; ZERO; OUT; FINISH;\nENDDECK\nSCHEDULE"),
        ["-: LIVE: slot 3 is at its first order", "slot 3 never had a turn: slot 0 could run at every call"],
    ),
    (
        "a slot that an exchange starves",
        job("PROGRAM; 1; J1; FINISH;", schedule="SWAP 0 3\nORDERS 40\n").replace("SCHEDULE", "SLOT 3\nSTORE 32\nDECK\nPROGRAM; 1; J1; FINISH;\nENDDECK\nSCHEDULE"),
        ["-: LIVE: slot 0 is at its first order", "slot 0 never had a turn: slot 3 could run at every call"],
    ),
    ("a Q-store that was never set", job("PROGRAM; 1; M0M2; J1; FINISH;"), ["NOUV: M0M2", "no statement sets Q2, which is used at 5:13: it is 0/0/0"]),
    ("CARD without +", job("PROGRAM; ZERO; OUT; FINISH;", "DEVICE 4 CR\n12345\n"), ["-:8:1: BadLine: 12345", "hint: expected +, DEVICE, SHOW, SLOT, POOL or SCHEDULE"]),
    ("DEVICE 16", job("PROGRAM; FINISH;", "DEVICE 16 CR\n"), ["-:7:8: BadNumber", "hint: this has to be a number from 0 to 15"]),
    ("SLOT 4", PLAIN.replace("SLOT 0", "SLOT 4"), ["-:2:6: BadNumber", "hint: this has to be a number from 0 to 3"]),
    ("STORE 8224", PLAIN.replace("STORE 64", "STORE 8224"), ["-:3:7: BadNumber", "hint: this has to be a number from 32 to 8192"]),
    ("SHEDULE", PLAIN.replace("SCHEDULE", "SHEDULE"), ["-:7:1: BadLine", "hint: did you mean SCHEDULE?"]),
    ("ORDERS without a number", PLAIN.replace("ORDERS 40", "ORDERS"), ["-:8:1: BadLine", "hint: the form of this line is ORDERS n"]),
]

# What is said of names that a deck hasn't, of bytes and addresses that aren't allowed, and of programs that could go on.
SLIPS += [
    ("a reference that is missing", job("PROGRAM; 1; 5; J2; FINISH;"), ["-:5:16: ReferenceMissing: J2", "hint: the main part has references 1 and 5"]),
    ("the only reference of a part", job("PROGRAM; J2P3; P3; 7; J7; FINISH;"), ["ReferenceMissing: J2P3", "hint: part 3 has reference 7"]),
    ("a reference of a part without any", job("PROGRAM; ZERO; OUT; P1; J2; FINISH;"), ["ReferenceMissing: J2", "hint: part 1 has no references"]),
    ("a reference twice", job("PROGRAM; 1; DUMMY;\n01; J1; FINISH;"), ["-:6:1: ReferenceTwice: 01", "hint: the first 1 of the main part is at 5:10"]),
    ("a part that is missing", job("PROGRAM; JSP3; ZERO; OUT; P1; EXIT 1; P2; EXIT 1; FINISH;"), ["-:5:10: PartMissing: JSP3", "hint: the deck has P1 and P2 besides its main part"]),
    ("a part in a deck without parts", job("PROGRAM; JSP3; ZERO; OUT; FINISH;"), ["PartMissing: JSP3", "hint: the deck has only its main part"]),
    ("a part twice", job("PROGRAM; ZERO; OUT; P1; EXIT 1;\nP 1; EXIT 1; FINISH;"), ["-:6:1: PartTwice: P 1", "hint: the first P1 is at 5:21"]),
    ("a V-store too many", job("PROGRAM V1; V2; FINISH;"), ["-:5:13: VRange: V2", "hint: the main part has V0 to V1"]),
    ("a V-store of another part", job("PROGRAM V0; V0P2; FINISH; P2; EXIT 1; FINISH;").replace(" FINISH; P2", " P2"), ["VRange: V0P2", "hint: part 2 has no V-stores"]),
    ("a Y-store too many", job("YA0; PROGRAM; YA1; FINISH;"), ["-:5:15: YRange: YA1", "hint: the deck declares YA0"]),
    ("a Y-store without a declaration", job("PROGRAM; =Y0; FINISH;"), ["YRange: =Y0", "hint: the deck declares no Y-stores"]),
    ("a deck too large for its store", job("Y99; PROGRAM; FINISH;"), ["TooLarge", "hint: the image has 101 words; write STORE 128, or more"]),
    ("a store that isn't whole groups", PLAIN.replace("STORE 64", "STORE 70"), ["-:3:7: SizeNotGroups: STORE 70", "hint: the nearest are STORE 64 and STORE 96"]),
    ("a letter of another alphabet", job("PROGRAM; (gr\xc3\xbc\xc3\x9f) ZERO; OUT; FINISH;"), ["-:5:13: BadByte: byte 195", "hint: this byte begins the letter \xc3\xbc; a deck has only the characters of"]),
    ("a letter whose capital is no byte", job("PROGRAM; dup\xff; FINISH;"), ["-:5:10: UnknownOrder: dup", "(docs/USERCODE.md, fault 4)"]),
    ("a byte that is no letter", job("PROGRAM; (gr\xfc) ZERO; OUT; FINISH;"), ["-:5:13: BadByte: byte 252", "hint: a deck has only the characters of"]),
    ("SHOW's addresses exchanged", PLAIN.replace("SCHEDULE", "SHOW 9 3\nSCHEDULE"), ["-:7:6: ShowRange: SHOW 9 3", "hint: the first address, 9, is above the last, 3"]),
    ("SHOW with one address", PLAIN.replace("SCHEDULE", "SHOW 32\nSCHEDULE"), ["-:7:1: BadLine: SHOW 32", "hint: the form of this line is SHOW a b"]),
    ("a card too long", job("PROGRAM; FINISH;", "DEVICE 4 CR\n+" + "A" * 83 + "\n"), ["-:8:82: BadMedium", "hint: a card has at most 80 characters, and this one has 83"]),
    ("a character that the KDF9 hasn't", job("PROGRAM; FINISH;", "DEVICE 4 CR\n+AB&C\n"), ["-:8:4: BadMedium", "hint: & isn't a character of the KDF9"]),
    ("a mark on a reader", job("PROGRAM; FINISH;", "DEVICE 2 TR\n=AB\n"), ["-:8:1: BadMedium", "hint: only a magnetic tape has lines that begin with ="]),
    ("a device without a kind, after another", job("PROGRAM; FINISH;", "DEVICE 2 TR\nDEVICE 3\n"), ["-:8:1: BadLine: DEVICE 3", "hint: the form of this line is DEVICE d k, or DEVICE d MT label"]),
    ("a number that is too large", job("PROGRAM; SET 40000; FINISH;"), ["-:5:10: BadNumber: SET 40000", "hint: the largest number here is 32767"]),
    ("a reference that is too large", job("PROGRAM; 1; J10000; FINISH;"), ["-:5:13: BadNumber: J10000", "hint: the largest number here is 9999"]),
    ("a number of 5,000 digits", PLAIN.replace("ORDERS 40", "ORDERS 4" + "0" * 5000), ["-:8:8: BadNumber", "hint: this has to be a number from 1 to 20000000"]),
    ("a store with 5,000 zeros before its number", job(f"PROGRAM; ZERO; =E{'0' * 5000}64; FINISH;"), ["-:5:16: LIV: =E0", "its address is 64; the store has words 0 to 63"]),
    ("an empty block", job("PROGRAM; FINISH;", "DEVICE 2 MT A\n+\n"), ["-:8:1: BadMedium", "hint: a block of a tape has at least 1 character after its sign"]),
    (
        "a loop that waits for a device by asking", job(READS.replace("E32;", "1; BUSYQ1; J1TR;"), READER),
        ["-:7:", "it is in a loop: it was here 2 orders earlier", "the transfer of device 2 began at call 8, and the schedule has no END 2 after it"],
    ),
    (
        "END 12 for END 2 in such a loop", job(READS.replace("E32;", "1; BUSYQ1; J1TR;"), READER, "ORDERS 40\nEND 12\nORDERS 9\n"),
        ["line 15, END 12: no slot has device 12; did you mean END 2?"],
    ),
    (
        "a slot that is starved after its transfer",
        job("PROGRAM; 1; DUMMY; J1; FINISH;", schedule="SWAP 0 3\nORDERS 9\nSWAP 0 3\nORDERS 5\nEND 2\nORDERS 10\n").replace(
            "SCHEDULE", f"SLOT 3\nSTORE 64\nDECK\n{READS}\nENDDECK\n{READER}SCHEDULE"),
        ["slot 3 was live when the schedule ended, after 8 orders; this is its next order", "it had no turn in the last 15 calls, in which slot 0 ran"],
    ),
]

# A slot that is served asks the installation's service by OUT 64, which exchanges the half words.
SERVICE = "SERVICE\n"
SLIPS += [
    (
        "OUT 64 without SERVICE", job("PROGRAM; SET 7;\n SETB100; OUT; FINISH;"),
        ["-:6:11: OUT: OUT", "OUT 64 asks the installation's service, and slot 0 isn't served: it has no line SERVICE after its ENDDECK"],
    ),
    ("no word for the service", job("PROGRAM; SETB100; OUT; FINISH;", SERVICE), ["-:5:19: NOUV: OUT", "the nest has 1 word, which is too few for OUT 64"]),
    (
        "decimal 100 for octal 100", job("PROGRAM; SET 7; SET 100; OUT; FINISH;", SERVICE),
        ["OUT 100 isn't one of 0, 3, 4, 5, 6, 8, 9 and 64; did you mean OUT 64? That is SET 64, or SETB100 in octal"],
    ),
    ("octal 64 for decimal 64", job("PROGRAM; SET 7; SETB64; OUT; FINISH;", SERVICE), ["OUT 52 isn't one of", "did you mean OUT 64?"]),
    (
        "the operands of OUT 64 exchanged", job("PROGRAM; SETB100; SET 7; OUT; FINISH;", SERVICE),
        ["OUT 7 isn't one of", "did you mean OUT 64? The number goes on top, and here 64 is in N2"],
    ),
    (
        "a word after the service's answer", job("PROGRAM; SET 7; SETB100; OUT; SET 3; OUT;\n =Q1; =Q2; +; FINISH;", SERVICE),
        ["-:6:12: NOUV: +", "\n  ANSWER 0 117440512: its order 4 asked the installation's service, which answered 0000000700000000 to the word 0000000000000007\n"],
    ),
    (
        "a loop after the service's answer", job("PROGRAM; SETB17; SETB100; OUT; SET 9; OUT; 1; J1; FINISH;", SERVICE),
        ["LIVE: J1", "\n  ANSWER 0 251658240: its order 4 asked the installation's service, which answered 0000001700000000 to the word 0000000000000017\n"],
    ),
]

# A program that takes a punch of the pool, and what comes after; and two of them.
TAKES = "PROGRAM V0; V0 = Q0/32/32;\n SET 1; SET 5; OUT; V0; =Q1; =C1; PWQ1;\n"
ENDS = "ZERO; OUT; FINISH;"
ASKS_FOR_A_PRINTER = "INTQ1; SET 3; SET 5; OUT; "


def pooled(one, other, schedule="ORDERS 40\nEND 9\nORDERS 40\n"):
    """A job of two programs of these decks, the first of which begins in line 5, and a pool of one punch and one printer."""
    return job(one, f"SLOT 1\nSTORE 64\nDECK\n{other}\nENDDECK\nPOOL\nDEVICE 9 TP\nDEVICE 4 LP\n", schedule)


RING = pooled(TAKES + ASKS_FOR_A_PRINTER + ENDS, "PROGRAM; SET 3; SET 5; OUT; SET 1; SET 5; OUT; FINISH;")
KEEPS = pooled(TAKES + "INTQ1; 1; J1; FINISH;", TAKES + ENDS)
SLIPS += [
    (
        "no END for the transfer of a device of the pool", pooled(TAKES + ENDS, TAKES + ENDS, "ORDERS 40\n"),
        [
            "-:13:16: LIVE: OUT", "held up by the pool, which had no free TP",
            "slot 0 took device 9 of the pool at call 4, and is itself held up by device 9: the schedule doesn't end its transfer",
        ],
    ),
    ("a device of the pool that is never given back", KEEPS, ["slot 0 took device 9 of the pool at call 4, and has neither given it back nor ended"]),
    (
        "a device of the pool that is free again", pooled(TAKES + "INTQ1; C1; SET 6; OUT; 1; J1; FINISH;", TAKES + ENDS),
        ["-:13:16: LIVE: OUT", "device 9 of the pool is free again, but slot 1 has had no turn since"],
    ),
    (
        "two that wait for each other", RING,
        ["slot 1 took device 4 of the pool at call 13, and is itself held up by the pool, which had no free TP: nobody will give anything back", "slot 0 took"],
    ),
    (
        "END 8 for END 9", pooled(TAKES + ENDS, TAKES + ENDS, "ORDERS 40\nEND 8\nORDERS 10\n"),
        ["line 21, END 8: neither a slot nor the pool has device 8; did you mean END 9?"],
    ),
    (
        "a second punch where the pool has one", pooled(TAKES + "SET 1; SET 5; OUT; FINISH;", "PROGRAM; ZERO; OUT; FINISH;"),
        ["-:7:15: CLAIM: OUT", "OUT 5 needs a paper tape punch, TP; device 9 is already claimed"],
    ),
    (
        "a card reader where the pool has none", pooled("PROGRAM; SET 4; SET 5; OUT; FINISH;", "PROGRAM; ZERO; OUT; FINISH;"),
        ["OUT 5 needs a card reader, CR; the slot has no devices; the pool has TP 9 and LP 4"],
    ),
    (
        "no OUT 5 for a device of the pool", pooled("PROGRAM V0; V0 = Q9/32/32;\n V0; =Q1; PWQ1; FINISH;", "PROGRAM; ZERO; OUT; FINISH;"),
        ["-:6:11: CLAIM: PWQ1", "Q1 names device 9, a paper tape punch of the pool, which the program hasn't got: OUT 5 takes one from the pool"],
    ),
    (
        "LPQ1 with the pool's punch", pooled(TAKES + "LPQ1; FINISH;", "PROGRAM; ZERO; OUT; FINISH;"),
        ["-:7:1: CLAIM: LPQ1", "Q1 names device 9, a paper tape punch of the pool; LPQ1 needs a line printer"],
    ),
]

# A job, and the status that explain gives it with --strict.
STRICT = [
    (PLAIN, 0), (job("PROGRAM; 1; J1; FINISH;"), 0), (job("PROGRAM; +; FINISH;"), 1), (job(READS, READER), 1),
    (job(READS, READER, "ORDERS 40\nEND 2\nORDERS 40\n"), 0), (job_of_deck("PROGRAM; FINISH"), 3), (RING, 1), (KEEPS, 0),
]


def slips_are_placed():
    for (what, _, parts), run in zip(SLIPS, side_by_side([(["explain", "-"], text) for _, text, _ in SLIPS])):
        missing = [part for part in parts if part not in run.err]
        yield f"the slip {what}", f"{missing} is missing in {run.err}" if missing else None


def strict_is_strict():
    plain_runs, strict_runs = (side_by_side([([*words, "-"], text) for text, _ in STRICT]) for words in (["explain"], ["explain", "--strict"]))
    for (text, status), plain, strict in zip(STRICT, plain_runs, strict_runs):
        same = (strict.out, strict.err) == (plain.out, plain.err) and plain.status == (status if status > 1 else 0)
        yield f"explain --strict of {text[40:70]!r}", None if strict.status == status and same else f"{strict} in place of {status}"


SUITES = (slips_are_placed, strict_is_strict)
