"""The judging of mutants, over kept outputs of real checks (outputs/)."""
import os
import types
import unittest

from mutants.judging import Report, is_promised

OUTPUTS = os.path.join(os.path.dirname(os.path.realpath(__file__)), "outputs")


def report(name, status=1, stubbed=()):
    with open(f"{OUTPUTS}/{name}.txt", encoding="utf-8") as it:
        return Report(it.read(), status, stubbed=stubbed)


def edit(function, **flags):
    """An edit of which the judging knows the function, and these things."""
    known = {"moves_steps": False, "is_recursive": False, "has_loop": False}
    known |= {"is_constant": False, "is_outside": False}
    return types.SimpleNamespace(function=function, **(known | flags))


class Judging(unittest.TestCase):
    """Each kind of output, by what it has to be taken for."""

    length = edit("nla_frame::bytes::Bytes::len")

    def test_result_that_is_not_promised(self):
        told = report("refused_by_search")
        self.assertTrue(told.is_judged and not told.is_proved)
        self.assertIn("`returns`", told.rejects(self.length))

    def test_answer_that_fails_at_a_promise(self):
        told = report("refused_by_answers")
        function = edit("nla_frame::iterator::NlasIteratorIterator::next")
        self.assertRegex(told.rejects(function), r"error: `returns")

    def test_lemma_that_an_answer_rests_on(self):
        told = report("refused_by_lemmas")
        laws = [edit(f"linkinfo_data::laws::{it}", is_outside=True)
                for it in ("families_lawful", "well_formed", "located")]
        lawful, well_formed, located = map(told.rejects, laws)
        self.assertIn("DataLawful.antt:160:59: error: `data_lawful`", lawful)
        self.assertIn("Stated.antt:142:54: error: `data_stated`", well_formed)
        # (which is proved)
        self.assertEqual(located, "")

    def test_lemma_below_a_lemma(self):
        rests = ("error: 1 declaration that depends on `{}`, which was not admitted, was not "
                 "checked: ")
        lemma = "./proofs/Below.antt:1:1: error: `below`: the types differ"
        above = f"./proofs/Above.antt:9:1: {rests.format('below')}above"
        answer = f"./proofs/laws/law/Answers.antt:4:5: {rests.format('above')}returns"
        line = "fn a::laws::law: not proved"
        law = edit("a::laws::law", is_outside=True)
        told = Report("\n".join([lemma, above, answer, line, "only=1 proved=0"]), 1)
        self.assertEqual(told.rejects(law), lemma)
        # (an edit of the body itself)
        self.assertEqual(told.rejects(edit("a::laws::law")), "")
        # (a lemma on which nothing of the function rests; one that names what the edit took away)
        apart = Report("\n".join([lemma, answer, line, "only=1 proved=0"]), 1)
        self.assertEqual(apart.rejects(law), "")
        lost = f"{lemma}: `x` is not in scope"
        told = Report("\n".join([lost, above, answer, line, "only=1 proved=0"]), 1)
        self.assertEqual(told.rejects(law), "")

    def test_right_body(self):
        told = report("right", 0)
        self.assertTrue(told.is_judged and told.is_proved)
        self.assertEqual(told.rejects(self.length), "")
        self.assertEqual(told.kinds_of(self.length), {"still proved"})

    def test_functions_with_a_stub(self):
        function = edit("nla_frame::emitters::emit_u16")
        mutant, right = [report(f"stubbed_{it}", stubbed=[function.function])
                         for it in ("mutant", "right")]
        for it in (mutant, right):
            self.assertTrue(it.is_judged and not it.is_proved)
        self.assertIn("(`returns`)", mutant.rejects(function))
        self.assertEqual(right.rejects(function), "")
        self.assertFalse(mutant.has_no_open_goal(function.function))
        self.assertTrue(right.has_no_open_goal(function.function))
        # (nothing is said of a function without a line)
        self.assertFalse(right.has_no_open_goal("nla_frame::emitters::emit_u32"))
        self.assertFalse(report("stubbed_right").has_no_open_goal(function.function))
        # (nor where its stub was not read, or its goals were not searched)
        with open(f"{OUTPUTS}/stubbed_right.txt", encoding="utf-8") as it:
            text = it.read()
        calls = ": no proof: it calls `g`, which is not proved"
        for old, new in ((": error: `unasked`: ", ": "), (": not proved", calls)):
            self.assertIn(old, text)
            other = Report(text.replace(old, new), 1, stubbed=[function.function])
            self.assertFalse(other.has_no_open_goal(function.function))

    def test_a_stub_after_explicit_answers(self):
        step = edit("nla_frame::iterator::NlasIteratorIterator::next")
        lost = edit("linkinfo_table::list::list_check", has_loop=True)
        moved = edit("linkinfo_table::rows::row_store", moves_steps=True)
        told = report("stubbed_answers", stubbed=[step.function])
        self.assertRegex(told.rejects(step), r"error: `returns")
        # (correct bodies, whose answers do not fit any more)
        for name, it in (("stubbed_names_lost", lost), ("stubbed_steps_moved", moved)):
            told = report(name, stubbed=[it.function])
            self.assertTrue(told.has_stub_error(it.function))
            self.assertEqual(told.rejects(it), "")
            self.assertFalse(told.has_no_open_goal(it.function))

    def test_index_out_of_range_is_no_refusal(self):
        told = report("only_a_panic")
        self.assertTrue(told.is_judged and not told.is_proved)
        self.assertIn("no proof", told.line_of(self.length.function))
        self.assertEqual(told.rejects(self.length), "")

    def test_body_that_does_not_compile(self):
        told = report("not_compiled")
        self.assertFalse(told.is_judged)
        self.assertFalse(told.is_proved)

    def test_names_that_answers_have_lost(self):
        told, check = report("names_lost"), edit("linkinfo_table::list::list_check", has_loop=True)
        self.assertTrue(told.is_judged and not told.is_proved)
        self.assertEqual(told.rejects(check), "")
        self.assertLessEqual({"names lost", "loop"}, told.kinds_of(check))

    def test_steps_that_moved(self):
        told, put = report("steps_moved"), edit("linkinfo_table::rows::row_store", moves_steps=True)
        self.assertTrue(told.is_judged and not told.is_proved)
        self.assertEqual(told.rejects(put), "")
        self.assertIn("steps moved", told.kinds_of(put))

    def test_law_that_does_not_hold(self):
        told = report("law_refused")
        equal = edit("linkinfo_shapes::laws::equal_data", is_outside=True)
        self.assertIn("`returns`", told.rejects(equal))
        self.assertEqual(report("law_proved", 0).rejects(equal), "")
        self.assertEqual(report("law_proved", 0).kinds_of(equal), {"outside"})

    def test_impl_whose_law_has_no_proof(self):
        told = report("impl_refused")
        equal = edit("linkinfo_table::peer::PeerFaultExactEq", is_outside=True)
        self.assertIn("error: `exact-value`", told.rejects(equal))
        told = report("impl_refused_from_nothing")
        run = edit("linkinfo_lines::streams::RunErrorExactEq", is_outside=True)
        self.assertIn("error: `exact-value`", told.rejects(run))
        self.assertEqual(told.rejects(equal), "")
        other = edit("linkinfo_table::peer::OtherExactEq", is_outside=True)
        self.assertEqual(told.rejects(other), "")

    def test_impl_of_which_two_laws_have_no_proof(self):
        told = report("impl_refused_by_two_laws")
        family = edit("linkinfo_peers::netkit::InfoNetkitOfLinkFamily", is_outside=True)
        self.assertIn("error: `lawful-value`", told.rejects(family))
        other = edit("linkinfo_peers::netkit::InfoNetkitOfNla", is_outside=True)
        self.assertEqual(told.rejects(other), "")

    def test_line_of_another_function(self):
        told = report("refused_by_search")
        self.assertEqual(told.rejects(edit("nla_frame::bytes::Bytes::is_empty")), "")

    def test_check_that_was_stopped(self):
        self.assertFalse(report("refused_by_search", -9).is_judged)
        self.assertFalse(Report("", 1).is_judged)

    def test_goals_that_a_function_promises(self):
        for goal in ("returns", "returns-in-3-clause-certain", "loop-smaller", "loop-2-init",
                     "f-returns", "loop-preserved-counted"):
            self.assertTrue(is_promised("crate::module::f", goal), goal)
        for goal in ("bounds-slice-0", "overflow_add-1", "nonzero_div", "next-requires",
                     "unreachable-f", "g-returns"):
            self.assertFalse(is_promised("crate::module::f", goal), goal)


if __name__ == "__main__":
    unittest.main()
