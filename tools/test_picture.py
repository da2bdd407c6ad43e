#!/usr/bin/env python3
"""Tests of the drawing of printed graphs: of its text everywhere, of its pictures where Graphviz is there."""
from __future__ import annotations

import os
import re
import shutil
import subprocess
import sys
import tempfile
import unittest
import xml.etree.ElementTree
from pathlib import Path

TOOLS = Path(__file__).resolve().parent
TOP = TOOLS.parent
GRAPHS = sorted((TOOLS / "graphs").glob("*.txt"))
sys.path.insert(0, str(TOP / "python"))

from luthkemb.graph_text import NotAGraph, graphs_in, read_graph  # noqa: E402
from luthkemb.picture import Picture  # noqa: E402
from luthkemb.views import OtherSource  # noqa: E402

HAS_GRAPHVIZ = shutil.which("dot") is not None
INC = (TOOLS / "graphs/inc.txt").read_text()


def text_of(name: str) -> str:
    return (TOOLS / f"graphs/{name}.txt").read_text()


def run(*words: str, text: str = "", path: str | None = None) -> subprocess.CompletedProcess[bytes]:
    environment = os.environ if path is None else {**os.environ, "PATH": path}
    command = [sys.executable, str(TOOLS / "picture.py"), *words]
    return subprocess.run(command, input=text.encode(), capture_output=True, env=environment)


class TheTextOfAGraph(unittest.TestCase):
    def test_every_line_is_read(self) -> None:
        for file in GRAPHS:
            with self.subTest(file.name):
                lines = file.read_text().splitlines()
                graphs = list(graphs_in(read_graph(file.read_text())))
                states = [state for it in graphs for state in it.states]
                read = {
                    "sdfg": len(graphs),
                    "state": len(states),
                    "node": sum(len(it.nodes) for it in states),
                    "edge": sum(len(it.edges) for it in states),
                    "next": sum(not it.back for state in states for it in state.transitions),
                    "back": sum(it.back for state in states for it in state.transitions),
                }
                self.assertEqual(read, {it: sum(line.startswith(f"{it} ") for line in lines) for it in read})

    def test_nested_graphs_stand_at_their_nodes(self) -> None:
        for file in GRAPHS:
            with self.subTest(file.name):
                graphs = list(graphs_in(read_graph(file.read_text())))
                paths = [".".join(str(number) for number in it.path) for it in graphs[1:]]
                self.assertEqual(paths, re.findall("^in (.*)$", file.read_text(), re.MULTILINE))

    def test_a_state_that_nothing_before_leads_to_ends_a_nested_graph(self) -> None:
        graph = read_graph(text_of("loops_and_call"))
        self.assertEqual([len(it.states) for it in graphs_in(graph)], [13, 3])

    def test_a_state_with_the_next_number_may_be_of_the_outer_graph(self) -> None:
        nested = "in 1.0\nsdfg g\nstate 0\nnext 1\nstate 1\n"
        graph = read_graph(f"sdfg f\nstate 0\nnext 1\nstate 1\nnode 0 nested g\nnext 2\n{nested}state 2\nnode 0 copy\n")
        self.assertEqual([len(it.states) for it in graphs_in(graph)], [3, 2])
        self.assertEqual(graph.states[2].nodes[0].what, "copy")

    def test_the_parts_of_a_graph(self) -> None:
        graph = read_graph(INC)
        self.assertEqual([(it.kind, it.extents) for it in graph.containers.values()], [("array", "[3]")] * 2)
        nodes = graph.states[1].nodes
        self.assertEqual([it.what for it in nodes], ["access", "map", "tasklet", "exit", "access"])
        self.assertEqual([it.scope for it in nodes], [None, None, 1, None, None])
        self.assertEqual([it.text for it in graph.states[1].edges], ["A", "A[i] _in0", "B[i] _out", "B"])

    def test_widths_and_sequential_maps_are_read(self) -> None:
        graph = read_graph("sdfg f\narray32 A[3]\nprivate stream32 S\ntransient T[2]\nstate 0\nnode 0 map i=0:3 sequential\nnode 1 exit 0\n")
        self.assertEqual([(it.kind, it.bits) for it in graph.containers.values()], [("array", 32), ("private stream", 32), ("transient", 64)])
        self.assertTrue(graph.containers["S"].is_stream() and not graph.containers["A"].is_stream())
        self.assertEqual((graph.states[0].nodes[0].what, graph.states[0].nodes[0].rest), ("map", "i=0:3 sequential"))

    def test_a_text_that_is_no_graph_is_told_with_its_line(self) -> None:
        lines = INC.splitlines()
        for line, old, new in (
            (1, "sdfg inc", "source error 4 at line 3"),
            (2, "array A[3]", "array A"),
            (3, "array B[3]", "array A[3]"),
            (4, "state 0", "state 1"),
            (5, "next 1", "array C[3]"),
            (7, "node 0 access A", "node 1 access A"),
            (7, "node 0 access A", "node 0 access C"),
            (8, "node 1 map i=0:3", "node 1 loop i=0:3"),
            (9, "node 2 in 1 tasklet line 7", "node 2 in 0 tasklet line 7"),
            (10, "node 3 exit 1", "node 3 exit 0"),
            (12, "edge 0 1 A", "edge 0 5 A"),
            (13, "edge 1 2 A[i] _in0", "node 5 copy"),
            (15, "edge 3 4 B", "in 1.2"),
            (16, "next 1", "next 2"),
            (16, "node 3 exit 1", "node 3 copy"),
        ):
            with self.subTest(new):
                place = lines.index(old)
                with self.assertRaises(NotAGraph) as refused:
                    read_graph("\n".join([*lines[:place], new, *lines[place + 1 :]]))
                self.assertEqual(refused.exception.line, line)

    def test_a_text_that_ends_too_early_is_told_at_its_end(self) -> None:
        nested = "sdfg f\nstate 0\nnode 0 nested g\n"
        for text, line in (("", 1), (nested, 4), (f"{nested}in 0.0", 5)):
            with self.subTest(text), self.assertRaises(NotAGraph) as refused:
                read_graph(text)
            self.assertEqual(refused.exception.line, line)


class TheTextThatIsDrawn(unittest.TestCase):
    def settings(self, name: str, label: str) -> str:
        """Gives what the nodes with this label, which look alike, are drawn with."""
        found = set(re.findall(rf'\[(.*) label="{re.escape(label)}"', Picture(text_of(name)).dot()))
        self.assertEqual(len(found), 1, label)
        return found.pop()

    def test_a_map_over_two_arrays(self) -> None:
        self.assertEqual(Picture(INC).dot(), (TOOLS / "graphs/inc.dot").read_text())

    def test_kinds_of_nodes_look_different(self) -> None:
        for name, label, settings in (
            ("loops_and_call", "A20", 'shape=ellipse style="filled,bold"'),
            ("loops_and_call", "T3", 'shape=ellipse style="filled"'),
            ("streams", "S15", 'shape=ellipse style="filled,dashed"'),
            ("loops_and_call", "S6", 'shape=ellipse style="filled,dashed"'),
            ("loops_and_call", r"tasklet\nline 12", 'shape=octagon style="filled"'),
            ("loops_and_call", r"map\nj4=1:2, j5=0:0", 'shape=trapezium style="filled"'),
            ("loops_and_call", "exit map", 'shape=invtrapezium style="filled"'),
            ("loops_and_call", r"consume\nS6 as e7", 'shape=trapezium style="filled,dashed"'),
            ("loops_and_call", "exit consume", 'shape=invtrapezium style="filled,dashed"'),
            ("loops_and_call", "copy", 'shape=box style="filled,rounded"'),
            ("reduction", r"reduce\nsum\naxis 0", 'shape=invtriangle style="filled"'),
        ):
            with self.subTest(label):
                self.assertEqual(self.settings(name, label), settings)

    def test_order_edges_are_dashed(self) -> None:
        lines = Picture(text_of("reduction")).dot().splitlines()
        self.assertIn("      g_s0_1 -> g_s0_3 [style=dashed]", lines)
        mark = 'color="#d95f02" fontcolor="#d95f02" arrowhead=dot'
        self.assertIn(rf'      g_s0_3 -> g_s0_4 [label="  A3(1, min)[0] \l  o7 \l" {mark}]', lines)

    def test_transitions_tell_what_they_ask_and_set(self) -> None:
        text = Picture(text_of("loops_and_call")).dot()
        ends = "color=blue fontcolor=blue ltail=cluster_g_s3 lhead=cluster_g_s1"
        self.assertIn(f'g_s3_out -> g_s1_in [{ends} constraint=false penwidth=2 label="  set k22=k22+1 \\l"]', text)
        self.assertIn('lhead=cluster_g_s2 label="  if line 25 \\l"]', text)
        self.assertIn('lhead=cluster_g_s4 label="  else \\l"]', text)

    def test_a_nested_graph_is_a_box_that_edges_lead_to(self) -> None:
        lines = [it.strip() for it in Picture(text_of("loops_and_call")).dot().splitlines()]
        self.assertIn("subgraph cluster_g_11_1 {", lines)
        self.assertIn(r'g_s11_0 -> g_11_1_in [lhead=cluster_g_11_1 label="  A20[2, 1:4] \l  A2 \l"]', lines)

    def test_names_are_drawn_once_and_used_after(self) -> None:
        for file in GRAPHS:
            with self.subTest(file.name):
                text = Picture(file.read_text()).dot()
                made = re.findall(r"^ *(\w+) \[shape=", text, re.MULTILINE)
                named = re.findall(r"^ *(\w+) -> (\w+) ", text, re.MULTILINE)
                self.assertEqual(len(made), len(set(made)))
                self.assertLessEqual({it for ends in named for it in ends}, set(made))
                clusters = re.findall(r"subgraph (\w+) ", text)
                self.assertEqual(len(clusters), len(set(clusters)))
                self.assertLessEqual(set(re.findall(r"l(?:head|tail)=(\w+)", text)), set(clusters))


class TheTextOfMermaid(unittest.TestCase):
    def lines(self, name: str) -> list[str]:
        return [it.strip() for it in Picture(text_of(name)).mermaid().splitlines()]

    def test_a_map_over_two_arrays(self) -> None:
        self.assertEqual(Picture(INC).mermaid(), (TOOLS / "graphs/inc.mermaid").read_text())

    def test_kinds_of_nodes_look_different(self) -> None:
        for name, drawn in (
            ("loops_and_call", '(["A20"]):::argument'),
            ("loops_and_call", '(["T3"])'),
            ("streams", '(["S15"]):::dashed'),
            ("loops_and_call", '{{"tasklet<br>line 12"}}'),
            ("loops_and_call", '[/"map<br>j4=1:2, j5=0:0"\\]'),
            ("loops_and_call", '[\\"exit map"/]'),
            ("loops_and_call", '[/"consume<br>S6 as e7"\\]:::dashed'),
            ("loops_and_call", '[\\"exit consume"/]:::dashed'),
            ("loops_and_call", '("copy")'),
            ("reduction", '{"reduce<br>sum<br>axis 0"}'),
        ):
            with self.subTest(drawn):
                label = re.search(r'".*"', drawn)
                found = {re.sub(r"^\w+", "", it) for it in self.lines(name) if label and label[0] in it and "subgraph" not in it}
                self.assertEqual({it for it in found if "--" not in it}, {drawn})

    def test_order_edges_are_dashed(self) -> None:
        lines = self.lines("reduction")
        self.assertIn("g_s0_1 -.-> g_s0_3", lines)
        self.assertIn('g_s0_3 --o|"A3(1, min)[0]<br>o7"| g_s0_4', lines)

    def test_transitions_tell_what_they_ask_and_set(self) -> None:
        lines = self.lines("loops_and_call")
        self.assertIn('g_s3 ==>|"back<br>set k22=k22+1"| g_s1', lines)
        self.assertTrue(any(it.endswith('==>|"if line 25"| g_s2') for it in lines))
        self.assertTrue(any(it.endswith('==>|"else"| g_s4') for it in lines))
        self.assertIn("g_s0 ==> g_s1", self.lines("inc"))

    def test_a_nested_graph_is_a_box_that_edges_lead_to(self) -> None:
        lines = self.lines("loops_and_call")
        self.assertIn('g_s11_0 -->|"A20[2, 1:4]<br>A2"| g_11_1', lines)
        self.assertTrue(any(it.startswith("subgraph g_11_1 [") for it in lines))

    def test_names_are_drawn_once_and_used_after(self) -> None:
        for file in GRAPHS:
            with self.subTest(file.name):
                lines = [it.strip() for it in Picture(file.read_text()).mermaid().splitlines()]
                boxes = [it.split()[1] for it in lines if it.startswith("subgraph ")]
                made = [*boxes, *re.findall(r"^(g_\w+)[(\[{]", "\n".join(lines), re.MULTILINE)]
                self.assertEqual(len(made), len(set(made)))
                ends = re.findall(r"^(g_\w+) (?:==>|-->|--o|-\.->)(?:\|.*\|)? (g_\w+)$", "\n".join(lines), re.MULTILINE)
                self.assertEqual(len(ends), sum(re.search(r" (==>|-->|--o|-\.->)", it) is not None for it in lines))
                self.assertLessEqual({it for pair in ends for it in pair}, set(made))
                self.assertEqual(lines.count("end"), len(boxes))

    def test_what_markdown_would_take_for_more_is_written_by_numbers(self) -> None:
        graph = INC.replace("edge 1 2 A[i] _in0", "edge 1 2 A[2*i] _in0").replace("edge 2 3 B[i] _out", "edge 2 3 B[i] _out_")
        text = Picture(graph).mermaid()
        self.assertIn('|"A[2#42;i]<br>_in0"|', text)
        self.assertIn('|"B[i]<br>_out#95;"|', text)


class TheWordsOfTheSource(unittest.TestCase):
    SOURCE = (TOOLS / "graphs/words.py").read_bytes()

    def mermaid(self, **how: bool) -> list[str]:
        return [it.strip() for it in Picture(text_of("words"), self.SOURCE, **how).mermaid().splitlines()]

    def test_tasklets_show_their_code(self) -> None:
        lines = self.mermaid()
        margin = "\u00a0" * 4
        self.assertIn(f'g_4_0_s1_2{{{{"if a #62; 9:<br>{margin}x = a // 2<br>else:<br>{margin}x = 9<br>line 6"}}}}', lines)
        self.assertIn('g_s8_1{{"A[1] = A[1] + 1<br>line 19"}}', lines)
        text = Picture(text_of("words"), self.SOURCE).dot()
        self.assertIn('label="if a > 9:\\l    x = a // 2\\lelse:\\l    x = 9\\lline 6\\l"', text)

    def test_exits_and_states_show_their_conditions(self) -> None:
        lines = self.mermaid()
        for drawn in (
            'g_s1 ==>|"if t #60; 5"| g_s2',
            'g_s1 ==>|"else"| g_s10',
            'g_s2 ==>|"if A[0] #62; t and 1"| g_s3',
            'g_s6 ==>|"if A[1] #60; 0"| g_s7',
            'g_s1["state 1: for t in range(1, 5)"]:::state',
            'g_s3["state 3: if A[0] #62; t and 1"]:::state',
            'g_s5["state 5: end of if"]:::state',
            'g_s6["state 6: while A[1] #60; 0"]:::state',
            'subgraph g_s8 ["state 8"]',
        ):
            with self.subTest(drawn):
                self.assertIn(drawn, lines)

    def test_nested_graphs_fold(self) -> None:
        lines = self.mermaid(fold=True)
        self.assertIn('g_s4_0[["nested<br>half"]]', lines)
        self.assertFalse([it for it in lines if "g_4_0" in it])
        text = Picture(text_of("words"), self.SOURCE, fold=True).dot()
        self.assertIn('g_s4_0 [shape=box3d style="filled" label="nested\\nhalf"', text)
        self.assertIn("g_s4_0 -> g_s4_1", text)

    def test_empty_states_are_left_out(self) -> None:
        lines = self.mermaid(empty=False)
        drawn = [it for it in lines if "==>" in it]
        self.assertEqual(
            drawn,
            [
                'g_s0 ==>|"set t=1"| g_s1',
                'g_s1 ==>|"if t #60; 5<br>if A[0] #62; t and 1"| g_s4',
                'g_s1 ==>|"if t #60; 5<br>else"| g_s6',
                'g_s1 ==>|"else"| g_s11',
                "g_s4 ==> g_s6",
                'g_s6 ==>|"if A[1] #60; 0"| g_s8',
                'g_s6 ==>|"back<br>else<br>set t=t+1"| g_s1',
                'g_s8 ==>|"back"| g_s6',
            ],
        )
        self.assertEqual([it.split("(")[0] for it in lines if it.endswith(":::point")], ["g_s0", "g_s1", "g_s6"])
        self.assertFalse([it for it in lines if it.startswith("g_4_0_s0")])

    def test_what_is_drawn_is_named_without_empty_states_too(self) -> None:
        for file in GRAPHS:
            for fold in (False, True):
                with self.subTest(file.name, fold=fold):
                    text = Picture(file.read_text(), fold=fold, empty=False).dot()
                    made = re.findall(r"^ *(\w+) \[shape=", text, re.MULTILINE)
                    named = re.findall(r"^ *(\w+) -> (\w+) ", text, re.MULTILINE)
                    self.assertLessEqual({it for ends in named for it in ends}, set(made))
                    clusters = set(re.findall(r"subgraph (\w+) ", text))
                    self.assertLessEqual(set(re.findall(r"l(?:head|tail)=(\w+)", text)), clusters)

    def test_long_code_is_cut(self) -> None:
        lines = [f"            x = a + {'1 + ' * 20}{it}" for it in range(20)]
        before, code, after = re.split(r"(            if a > 9:\n(?:.*\n){3})", self.SOURCE.decode())
        self.assertEqual(code.count("\n"), 4)
        source = "\n".join([before, *lines, after]).replace("X[i]\n\n", "X[i]\n")
        moved = re.sub(r"line (\d+)", lambda it: f"line {int(it[1]) + 16 * (int(it[1]) > 6)}", text_of("words"))
        text = next(it for it in Picture(moved, source.encode()).mermaid().splitlines() if "g_4_0_s1_2{{" in it)
        self.assertEqual((text.count("<br>"), text.count("…")), (12, 12))

    def test_another_source_is_refused(self) -> None:
        for source in (b"", b"(", self.SOURCE.replace(b"        half(A)\n", b"        A[0] = 2\n"), b"\n" + self.SOURCE):
            with self.subTest(source[:9]), self.assertRaises(OtherSource):
                Picture(text_of("words"), source)


class ThePicturesOfTheDocuments(unittest.TestCase):
    PICTURE = re.compile(
        r"^    \./sdfg ([^|\n]*) \| tools/picture\.py --mermaid --source (\S+)\n\n```mermaid\n(.*?)```$",
        re.MULTILINE | re.DOTALL,
    )

    def test_they_are_made_by_the_commands_above_them(self) -> None:
        text = (TOP / "docs/GRAPH.md").read_text()
        pictures = self.PICTURE.findall(text)
        self.assertEqual((len(pictures), text.count("```mermaid")), (3, 3))
        for words, given, drawn in pictures:
            with self.subTest(words):
                command, source, arrays = words.split()
                self.assertEqual(given, source)
                folder = TOP / Path(source).parent
                case = (folder / "graph.words").read_text().split()
                self.assertEqual([command, source, arrays], [case[0], *(str((folder / it).relative_to(TOP)) for it in case[1:])])
                ran = run("--mermaid", "--source", str(TOP / source), str(folder / "graph.expected"))
                self.assertEqual((ran.returncode, ran.stdout.decode(), ran.stderr), (0, drawn, b""))


class TheCommand(unittest.TestCase):
    def setUp(self) -> None:
        folder = tempfile.TemporaryDirectory()
        self.addCleanup(folder.cleanup)
        self.folder = Path(folder.name)

    def test_the_text_to_draw_needs_no_graphviz(self) -> None:
        ran = run("--dot", text=INC, path=str(self.folder))
        wanted = (TOOLS / "graphs/inc.dot").read_bytes()
        self.assertEqual((ran.returncode, ran.stdout, ran.stderr), (0, wanted, b""))
        output = self.folder / "graph.dot"
        self.assertEqual(run("-o", str(output), str(TOOLS / "graphs/inc.txt"), path="").returncode, 0)
        self.assertEqual(output.read_bytes(), wanted)
        ran = run("--mermaid", text=INC, path=str(self.folder))
        wanted = (TOOLS / "graphs/inc.mermaid").read_bytes()
        self.assertEqual((ran.returncode, ran.stdout, ran.stderr), (0, wanted, b""))

    def test_without_graphviz_the_status_is_4(self) -> None:
        output = self.folder / "graph.svg"
        ran = run("-o", str(output), text=INC, path=str(self.folder))
        self.assertEqual((ran.returncode, ran.stdout), (4, b""))
        self.assertIn(b"Graphviz is not there", ran.stderr)
        self.assertIn(b"--dot", ran.stderr)
        self.assertFalse(output.exists())

    def test_where_graphviz_fails_the_status_is_1(self) -> None:
        program = self.folder / "dot"
        program.write_text("#!/bin/sh\necho no layout >&2\nexit 3\n")
        program.chmod(0o755)
        ran = run(text=INC, path=f"{self.folder}:{os.environ['PATH']}")
        self.assertEqual((ran.returncode, ran.stdout, ran.stderr), (1, b"", b"picture.py: no layout\n"))

    def test_other_refusals(self) -> None:
        for status, words, text in (
            (1, ["--dot", str(self.folder / "none")], ""),
            (1, ["--dot", "-o", str(self.folder / "none/graph.dot")], INC),
            (2, ["--pdf"], INC),
            (2, ["--svg", "--dot"], INC),
            (2, ["--dot", "--mermaid"], INC),
            (3, ["--dot"], "arrays error 14\n"),
            (3, ["--dot", "--source", str(TOP / "examples/fibonacci/fib.py")], INC),
            (3, ["--dot", "--source", str(TOP / "README.md")], INC),
            (1, ["--dot", "--source", str(self.folder / "none")], INC),
        ):
            with self.subTest(words):
                ran = run(*words, text=text)
                self.assertEqual((ran.returncode, ran.stdout), (status, b""))
                self.assertTrue(ran.stderr)

    @unittest.skipUnless(HAS_GRAPHVIZ, "Graphviz is not there")
    def test_a_picture_shows_all_that_is_printed(self) -> None:
        for file in GRAPHS:
            with self.subTest(file.name):
                ran = run(str(file))
                self.assertEqual((ran.returncode, ran.stderr), (0, b""))
                shown = {it.strip() for it in xml.etree.ElementTree.fromstring(ran.stdout).itertext()}
                for graph in graphs_in(read_graph(file.read_text())):
                    self.assertIn(graph.name, shown)
                    containers = {f"{it.kind} {it.name}{it.extents}" for it in graph.containers.values()}
                    self.assertLessEqual(containers, shown)
                    for number, state in enumerate(graph.states):
                        edges = {it for edge in state.edges for it in edge.text.rsplit(" ", 1) if it}
                        self.assertLessEqual({f"state {number}", *edges}, shown)

    @unittest.skipUnless(HAS_GRAPHVIZ, "Graphviz is not there")
    def test_the_form_is_asked_for_or_that_of_the_ending(self) -> None:
        output = self.folder / "graph.png"
        self.assertEqual(run("-o", str(output), text=INC).returncode, 0)
        self.assertTrue(output.read_bytes().startswith(b"\x89PNG"))
        self.assertTrue(run("--png", text=INC).stdout.startswith(b"\x89PNG"))
        self.assertEqual(run("--svg", "-o", str(output), text=INC).returncode, 0)
        self.assertTrue(output.read_bytes().startswith(b"<?xml"))

    @unittest.skipUnless(HAS_GRAPHVIZ, "Graphviz is not there")
    def test_a_notebook_shows_the_picture(self) -> None:
        self.assertIn("<svg", Picture(INC)._repr_svg_() or "")


if __name__ == "__main__":
    unittest.main()
