"""The module cesr as people use it, over the library that CESR_LIBRARY names. Expected values are the papers' and the guide's."""
import os
import pathlib
import subprocess
import sys
import tempfile
import unittest

HERE = pathlib.Path(__file__).resolve().parent
sys.path.insert(0, str(HERE))
import cesr  # noqa: E402

SAMPLES = HERE.parent / "samples"


def refused(call, *given):
    try:
        call(*given)
    except cesr.Refused as refusal:
        return refusal.number, refusal.place
    return None


class Judged(unittest.TestCase):
    def test_a_stream_with_a_refusal(self):
        report = cesr.judge("text", (SAMPLES / "first.cesr").read_bytes())
        self.assertFalse(report.passed)
        self.assertEqual(str(report), "5 items, 4 accepted, 1 refused, no remainder")
        self.assertEqual([item.verdict for item in report.items], [0, 0, 8, 0, 0])
        self.assertEqual(report.items[2], cesr.Item(2, 80, 44, 8))
        self.assertEqual(report.refusals, [cesr.Refusal(2, 8, 80)])
        self.assertIsNone(report.remainder)

    def test_what_passes_and_what_does_not(self):
        for form, stream, passed in [
            ("text", (SAMPLES / "clean.cesr").read_bytes(), True),
            ("text", b"MAAB", True),
            ("binary", b"\xd4\x00\x0c", True),
            ("text", (SAMPLES / "cut.cesr").read_bytes(), False),
            ("text", b"MAABMQAA", False),
            # Every item is accepted, and four characters are left over.
            ("text", b"MAABE8wY", False),
            ("text", b"", False),
            ("binary", bytearray(), False),
        ]:
            self.assertIs(cesr.judge(form, stream).passed, passed, stream)

    def test_a_remainder(self):
        report = cesr.judge("text", b"MAAB_AAA")
        self.assertEqual(report.remainder, cesr.Remainder(4, 6))
        self.assertEqual(str(report), "1 item, 1 accepted, 0 refused, remainder 6 from 4")

    def test_what_is_no_report_or_too_long(self):
        self.assertEqual(refused(cesr.Report, b"MAAB"), (20, 0))
        self.assertEqual(refused(cesr.judge, "text", b"A" * (cesr.LIMIT["text"] + 1)), (1, 0))
        self.assertEqual(refused(cesr.judge, "binary", bytes(cesr.LIMIT["binary"] + 1)), (1, 0))

    def test_the_longest_stream(self):
        report = cesr.judge("text", b"MAAB" * (cesr.LIMIT["text"] // 4))
        self.assertTrue(report.passed)
        self.assertEqual(len(report.items), 1048576)

    def test_expected_verdicts(self):
        report = cesr.judge("text", b"MQAAMAAB")
        as_expected = cesr.compare(bytes([0, 0, 0, 2, 8, 0, 0, 0, 0, 0]), report.bytes)
        self.assertEqual(as_expected, cesr.Comparison(2, 0, 0, 0, True))
        otherwise = cesr.compare(bytes([0, 0, 0, 3, 0, 0, 0, 0, 0, 0, 1, 4]), report.bytes)
        self.assertEqual(otherwise, cesr.Comparison(1, 1, 1, 0, False))
        self.assertEqual(refused(cesr.compare, b"", report.bytes), (20, 0))


class Fed(unittest.TestCase):
    def whole(self, form, stream, pieces):
        live, told = cesr.Pieces(form), []
        for piece in pieces:
            told += live.feed(piece)
        report = live.end()
        self.assertEqual(report.bytes, cesr.judge(form, stream).bytes)
        self.assertEqual([item for item, _ in told], report.items)
        self.assertEqual([refusal for _, refusal in told if refusal], report.refusals)

    def test_wherever_it_is_cut(self):
        for name in ["first.cesr", "cut.cesr", "faults.cesr", "clean.cesr"]:
            text = (SAMPLES / name).read_bytes()
            for step in [1, 3, 4, 5, len(text)]:
                self.whole("text", text, [text[at : at + step] for at in range(0, len(text), step)])
        for cut in range(13):
            self.whole("text", b"-AAB0AAAMAAB", [b"-AAB0AAAMAAB"[:cut], b"", b"-AAB0AAAMAAB"[cut:]])
        self.whole("binary", b"\x30\0\1\x31\0\0\x30", [b"\x30\0", bytearray(b"\1\x31\0"), memoryview(b"\0\x30")])
        self.whole("binary", b"", [])

    def test_items_come_with_their_last_byte(self):
        live = cesr.Pieces("text")
        self.assertEqual(live.feed(b"MAABMQA"), [(cesr.Item(0, 0, 4, 0), None)])
        self.assertEqual(live.feed(b"A"), [(cesr.Item(1, 4, 4, 8), cesr.Refusal(1, 8, 4))])
        self.assertEqual(live.feed(b""), [])
        self.assertFalse(live.end().passed)
        self.assertEqual(refused(live.feed, b"MAAB"), (13, 0))
        self.assertEqual(refused(live.end), (13, 0))

    def test_the_limit(self):
        for form in ["text", "binary"]:
            live = cesr.Pieces(form)
            live.feed(b"\xff" * cesr.LIMIT[form])
            self.assertEqual(refused(live.feed, b"A"), (1, 0))
            self.assertIsNotNone(live.end().remainder)

    def test_what_is_no_piece_and_no_form(self):
        for piece in [4, "MAAB", None]:
            self.assertRaises(TypeError, cesr.Pieces("text").feed, piece)
        self.assertRaisesRegex(ValueError, "a form is text or binary", cesr.Pieces, "T")


class Converted(unittest.TestCase):
    def test_there_and_back(self):
        text = (SAMPLES / "clean.cesr").read_bytes()
        binary = cesr.convert("binary", text)
        self.assertEqual(len(binary) * 4, len(text) * 3)
        self.assertEqual(cesr.convert("text", binary), text)
        self.assertEqual(cesr.convert("binary", b"1AAM"), b"\xd4\x00\x0c")
        self.assertEqual(cesr.convert("text", b""), b"")

    def test_refusals(self):
        self.assertEqual(refused(cesr.convert, "binary", b"MAA+"), (19, 3))
        self.assertEqual(refused(cesr.convert, "binary", b"MAABM"), (2, 0))
        with self.assertRaisesRegex(ValueError, "refused 5 at 3: character outside the alphabet"):
            cesr.convert("binary", b"MAA!")


class Walked(unittest.TestCase):
    def test_all_depths(self):
        steps = list(cesr.walk("text", b"-AABMAAB1AAM"))
        self.assertEqual(steps, [(0, 8, 0, "-A"), (4, 4, 1, "M"), (8, 4, 0, "1AAM")])
        binary = cesr.convert("binary", b"-_AAACAA-JAD5BABAGhpXicp")
        self.assertEqual([step.code for step in cesr.walk("binary", binary)], ["-_", "-J", "5B", "X"])

    def test_the_first_refusal_comes_in_its_turn(self):
        walk = cesr.walk("text", b"MAABMQAA")
        self.assertEqual(next(walk).code, "M")
        with self.assertRaises(cesr.Refused) as caught:
            next(walk)
        self.assertEqual((caught.exception.number, caught.exception.place), (8, 4))

    def test_the_end(self):
        self.assertEqual(list(cesr.walk("binary", b"")), [])


class Read(unittest.TestCase):
    def test_both_forms(self):
        for form, stream in [("text", b"MAAB5BABAGhp"), ("binary", cesr.convert("binary", b"MAAB5BABAGhp"))]:
            unit = cesr.UNIT[form]
            self.assertEqual(cesr.read(form, stream), ("M", unit, "", b"\x00\x01", None))
            self.assertEqual(cesr.read(form, stream, unit), ("5B", 2 * unit, "", b"hi", None))

    def test_text(self):
        for text, code, said in [(b"5AABAA-a", "5A", "-a"), (b"4AADA-a-personal", "4A", "-a-personal"), (b"4AAA", "4A", "")]:
            for form in ["text", "binary"]:
                stream = text if form == "text" else cesr.convert("binary", text)
                found = cesr.read(form, stream)
                self.assertEqual((found.code, found.size, found.raw, found.text), (code, len(stream), b"", said))
                self.assertEqual(cesr.write_variable(form, "A", said.encode()), stream)
        self.assertEqual(refused(cesr.write_variable, "text", "A", b"Albany"), (16, 0))

    def test_tags(self):
        self.assertEqual(cesr.read("text", b"Xicp"), ("X", 4, "icp", b"", None))
        self.assertEqual(cesr.read("text", b"0J_A").tag, "A")

    def test_refusals(self):
        self.assertEqual(refused(cesr.read, "text", b"-AABMAAB"), (14, 0))
        self.assertEqual(refused(cesr.read, "text", b"MAAB", 4)[0], 4)
        self.assertEqual(refused(cesr.read, "binary", b"", 7)[0], 4)


class Written(unittest.TestCase):
    def test_what_is_read_again(self):
        for code, raw, tag, text in [
            ("M", b"\x00\x01", "", b"MAAB"),
            ("4B", b"hi", "", b"5BABAGhp"),
            ("0J", b"", "A", b"0J_A"),
            ("1AAM", b"", "", b"1AAM"),
        ]:
            self.assertEqual(cesr.write("text", code, raw, tag), text)
            self.assertEqual(cesr.write("binary", code, raw, tag), cesr.convert("binary", text))
            found = cesr.read("text", text)
            self.assertEqual((found.raw, found.tag), (raw, tag))

    def test_a_value_by_its_type(self):
        self.assertEqual(cesr.write_variable("text", "B", b"hi"), b"5BABAGhp")
        self.assertTrue(cesr.write_variable("text", "B", bytes(12285)).startswith(b"4B__"))
        large = cesr.write_variable("text", "B", bytes(12286))
        self.assertEqual((large[:8], len(large)), (b"9AABABAA", 16392))
        self.assertEqual(cesr.read("text", large), ("9AAB", 16392, "", bytes(12286), None))

    def test_refusals(self):
        self.assertEqual(refused(cesr.write, "text", "M", b"one"), (12, 0))
        self.assertEqual(refused(cesr.write, "text", "7AAB", b"hi"), (18, 0))
        self.assertEqual(refused(cesr.write, "text", "X", b"", "i+p"), (19, 1))
        self.assertEqual(refused(cesr.write, "text", "b", b""), (6, 0))
        for code in ["", "-A", "MM", "2AAA", "4", "0é"]:
            self.assertRaises(ValueError, cesr.write, "text", code)


class Indexed(unittest.TestCase):
    def test_there_and_back(self):
        for code, index, ondex, raw in [("A", 63, 0, 64), ("0A", 1, 2, 114), ("2C", 65, 130, 64), ("3B", 262143, 0, 114)]:
            raw = bytes(range(raw))
            for form in ["text", "binary"]:
                item = cesr.write_indexed(form, code, index, ondex, raw)
                self.assertEqual(cesr.read_indexed(form, item), (code, len(item), index, ondex, raw))
        self.assertTrue(cesr.write_indexed("text", "2A", 65, 130, bytes(64)).startswith(b"2ABBCCAA"))

    def test_in_a_group(self):
        group = b"-KAt" + cesr.write_indexed("text", "B", 5, 0, bytes(64)) + cesr.write_indexed("text", "2C", 65, 2, bytes(64))
        self.assertEqual(list(cesr.walk("text", group)), [(0, 184, 0, "-K"), (4, 88, 1, "B"), (92, 92, 1, "2C")])
        self.assertTrue(cesr.judge("text", group).passed)
        self.assertEqual(cesr.read_indexed("text", group, 92)[:4], ("2C", 92, 65, 2))
        # A key of the master table is half an item here, and a digest is none.
        for start, number in [(b"D", 4), (b"E", 6)]:
            report = cesr.judge("text", b"-KAL" + start + b"A" * 43)
            self.assertEqual(report.refusals, [(0, number, 4)])

    def test_refusals(self):
        self.assertEqual(refused(cesr.write_indexed, "text", "E", 0, 0, bytes(64)), (6, 0))
        self.assertEqual(refused(cesr.write_indexed, "text", "A", 64, 0, bytes(64)), (12, 0))
        self.assertEqual(refused(cesr.write_indexed, "text", "A", 2**64, 0, bytes(64)), (12, 0))
        self.assertEqual(refused(cesr.write_indexed, "text", "B", 0, 1, bytes(64)), (12, 0))
        self.assertEqual(refused(cesr.write_indexed, "text", "2B", 0, 1, bytes(64)), (15, 0))
        self.assertEqual(refused(cesr.read_indexed, "text", b"-KAA"), (6, 0))
        self.assertRaises(ValueError, cesr.write_indexed, "text", "2AA", 0, 0, bytes(64))
        self.assertRaises(ValueError, cesr.write_indexed, "text", "A", -1, 0, bytes(64))


class Groups(unittest.TestCase):
    def test_around_items(self):
        self.assertEqual(cesr.write_group("text", "A", b"MAAB"), b"-AABMAAB")
        self.assertEqual(cesr.write_group("binary", "A", b"\x30\x00\x01"), b"\xf8\x00\x01\x30\x00\x01")
        self.assertEqual(cesr.write_group("text", "A", b""), b"-AAA")
        body = b"1AAK" * 4095
        self.assertEqual(cesr.write_group("text", "J", body), b"-J__" + body)
        self.assertEqual(cesr.write_group("text", "J", body + b"1AAK"), b"--JAABAA" + body + b"1AAK")

    def test_one_in_the_other(self):
        for form in ["text", "binary"]:
            signatures = [cesr.write_indexed(form, "A", index, 0, bytes(64)) for index in range(2)]
            signed = cesr.write_group(form, "K", b"".join(signatures))
            number = cesr.write(form, "M", b"\x00\x01")
            stream = cesr.write_group(form, "C", signed + number)
            self.assertTrue(cesr.judge(form, stream).passed)
            depths = [(step.depth, step.code) for step in cesr.walk(form, stream)]
            self.assertEqual(depths, [(0, "-C"), (1, "-K"), (2, "A"), (2, "A"), (1, "M")])

    def test_refusals(self):
        self.assertEqual(refused(cesr.write_group, "text", "0", b"MAAB"), (6, 0))
        self.assertEqual(refused(cesr.write_group, "text", "A", b"MAA"), (2, 0))
        self.assertEqual(refused(cesr.write_group, "text", "K", b"MAAB"), (6, 0))
        self.assertEqual(refused(cesr.write_group, "text", "A", b"MAABMQAA"), (8, 4))
        self.assertEqual(refused(cesr.write_group, "text", "A", b"1AAK" * (2**20 - 1)), (1, 0))
        for letter in ["-K", "", "KK", "\u00e9"]:
            self.assertRaises(ValueError, cesr.write_group, "text", letter, b"")


class Second(unittest.TestCase):
    def test_the_same_report(self):
        for stream in [b"", b"MAAB", b"MAABMQAA-AAB0AAA_AAA", b"MAABMA!!", b"\x30\x00\x01\x30", bytes(300)]:
            for form in ["text", "binary"]:
                self.assertEqual(cesr.judge_second(form, stream).bytes, cesr.judge(form, stream).bytes)

    def test_refusals(self):
        self.assertEqual(refused(cesr.judge_second, "text", b"A" * (cesr.LIMIT["text"] + 1)), (1, 0))
        self.assertEqual(refused(cesr.judge_second, "binary", b"A" * (cesr.LIMIT["binary"] + 1)), (1, 0))
        self.assertRaises(ValueError, cesr.judge_second, "mixed", b"MAAB")


class Mixed(unittest.TestCase):
    # 02 d: a JSON item of 24 bytes, a text group refused 8, a binary group, and a primitive, which starts no item.
    STREAM = b'{"v":"KERI10JSON000018_"' + b"-AABMQAA" + b"\xF8\x00\x00" + b"MAAB"

    def test_rows_with_their_form(self):
        report = cesr.judge_mixed(self.STREAM)
        rows = [(item.offset, item.size, item.verdict, item.form) for item in report.items]
        self.assertEqual(rows, [(0, 24, 0, "json"), (24, 8, 8, "text"), (32, 3, 0, "binary")])
        self.assertEqual(report.refusals, [cesr.Refusal(1, 8, 28)])
        self.assertEqual(report.remainder, cesr.Remainder(35, 17))
        self.assertEqual((report.passed, report.unjudged), (False, 1))
        self.assertEqual(str(report), "3 items, 2 accepted, 1 refused, remainder 17 from 35")
        self.assertTrue(cesr.judge_mixed(self.STREAM[:24] + self.STREAM[32:35]).passed)
        self.assertFalse(cesr.judge_mixed(b"").passed)
        self.assertRaises(TypeError, bool, report)

    def test_the_order_of_02(self):
        def rest(stream):
            return cesr.judge_mixed(stream).remainder

        head = b'{"v":"KERI10JSON0000%s_'
        for stream, number in [
            (b"{" * 22, 4), (b"{" * 23, 17), (head % b"1A", 17), (head % b"16", 17), (head % b"18", 4),
            ((head % b"17").replace(b"JSON", b"MGPK"), 17), (b"MAAB", 17), (b"-A!A", 5), (b"-A+A", 19), (b"\xF7\0\0", 17), (b"\xFC\0\0", 17),
        ]:
            self.assertEqual(rest(stream), cesr.Remainder(0, number), stream)
        self.assertTrue(cesr.judge_mixed(head % b"17").passed)

    def test_a_header(self):
        self.assertEqual(cesr.json_header(self.STREAM[:24]), cesr.Json("KERI", "10", 24))
        self.assertRaises(ValueError, cesr.json_header, b"-AAA")

    def test_refusals(self):
        self.assertEqual(refused(cesr.judge_mixed, b"-" * (cesr.MIXED_LIMIT + 1)), (1, 0))
        whole = cesr.judge_mixed(self.STREAM).bytes
        for end in range(len(whole)):
            self.assertEqual(refused(cesr.MixedReport, whole[:end]), (20, 0))
        self.assertEqual(refused(cesr.MixedReport, whole + b"\0"), (20, 0))


class Said(unittest.TestCase):
    def test_words_are_those_of_the_list(self):
        rows = [line.split(" ", 2) for line in (HERE.parent / "include/numbers.txt").read_text().splitlines() if line[:1].isdigit()]
        self.assertGreater(len(rows), 16)
        for number, _, words in rows:
            self.assertEqual(cesr.words(int(number)), words)
        self.assertEqual([cesr.words(number) for number in (21, 200, -1, 256)], [""] * 4)

    def test_a_report_is_no_pass(self):
        with self.assertRaisesRegex(TypeError, "a report is no pass"):
            bool(cesr.judge("text", b"MAAB"))

    def test_what_is_no_stream(self):
        for stream in [4, "MAAB", None, [77]]:
            self.assertRaises(TypeError, cesr.judge, "text", stream)
        for stream in [bytearray(b"MAAB"), memoryview(b"MAAB")]:
            self.assertTrue(cesr.judge("text", stream).passed)

    def test_what_is_no_form(self):
        def walked(form, stream):
            return list(cesr.walk(form, stream))

        def written(form, raw):
            return cesr.write(form, "0H", raw)

        for call in [cesr.judge, cesr.convert, cesr.read, walked, written]:
            with self.assertRaisesRegex(ValueError, "a form is text or binary, not 'T'"):
                call("T", b"MAAB")

    def test_the_version(self):
        self.assertEqual(cesr.version(), cesr.__version__)

    def test_another_version_is_no_library_of_this_module(self):
        with tempfile.TemporaryDirectory() as folder:
            text = (HERE / "cesr.py").read_text()
            (pathlib.Path(folder) / "cesr.py").write_text(text.replace(f'"{cesr.__version__}"', '"9.9.9"'))
            env = {**os.environ, "PYTHONPATH": folder}
            said = subprocess.run([sys.executable, "-c", "import cesr"], capture_output=True, text=True, env=env)
        self.assertIn("and this module is of 9.9.9", said.stderr)


if __name__ == "__main__":
    unittest.main()
