"""Tests of circuits in other forms than texts: paths, and objects of Qiskit, PyZX and pytket by stand-ins for these
libraries (see `stand_ins`). The last class runs with the real libraries, where they are."""
from __future__ import annotations

import importlib.util
import pickle
import subprocess
import sys
import types
import unittest
from pathlib import Path

import stand_ins
from stand_ins import Operation
from support import EXAMPLES, HEAD, PYTHON, InRoom, example

import zxopt


class Texts(InRoom):
    """What is taken for a text, and what isn't."""

    def test_paths(self) -> None:
        file = EXAMPLES / "tof_3.qasm"
        text = example("tof_3.qasm")
        self.assertEqual(zxopt.optimise(file), zxopt.optimise(text))
        self.assertEqual(zxopt.teleport(file), zxopt.teleport(text))
        self.assertEqual(zxopt.counts(file, best=False), zxopt.counts(text, best=False))
        self.assertTrue(zxopt.same(file, text))
        self.assertEqual(zxopt.measures(file), zxopt.measures(text))
        self.assertEqual(zxopt.compile(EXAMPLES / "diagram.zxd"), HEAD + "qreg q[1];\nt q[0];\n")
        self.assertEqual(zxopt.prepare.prepare(file).text, text)
        with self.assertRaises(FileNotFoundError):
            zxopt.optimise(Path("nowhere.qasm"))

    def test_bytes(self) -> None:
        data = example("two_t.qasm").encode()
        for circuit in (data, bytearray(data), memoryview(data)):
            self.assertEqual(zxopt.optimise(circuit), HEAD + "qreg q[1];\ns q[0];\n")

    def test_what_is_no_circuit(self) -> None:
        calls = (zxopt.optimise, zxopt.optimize, zxopt.teleport, zxopt.counts, zxopt.measures, lambda it: zxopt.same(HEAD, it))
        for wrong in (5, None, 1.5, [HEAD], object(), zxopt):
            for call in calls:
                with self.subTest(wrong=wrong), self.assertRaises(TypeError) as caught:
                    call(wrong)
                self.assertIn("a circuit is a text (str, bytes), a path, or a circuit of Qiskit, PyZX or pytket", str(caught.exception))
        with open(EXAMPLES / "two_t.qasm", encoding="utf-8") as file, self.assertRaises(TypeError) as caught:
            zxopt.optimise(file)
        self.assertIn("give what its read() answers", str(caught.exception))
        with self.assertRaises(TypeError) as caught:
            zxopt.optimise(stand_ins.Graph())
        self.assertIn("pyzx.extract_circuit", str(caught.exception))

    def test_modules_stand_beside(self) -> None:
        """Without an import of their own, and without the libraries that they are for."""
        source = (
            "import zxopt, sys; zxopt.prepare.prepare, zxopt.parts.optimise_parts, zxopt.batch.plan, zxopt.spelling.only_t, "
            "zxopt.qiskit.to_text, zxopt.pyzx.to_text, zxopt.pytket.to_text, zxopt.counting.measures, zxopt.measures; "
            "assert zxopt.optimize is zxopt.optimise; assert not {'qiskit', 'pyzx', 'pytket'} & set(sys.modules)"
        )
        ran = subprocess.run([sys.executable, "-c", source], env={"PYTHONPATH": str(PYTHON)}, stderr=subprocess.PIPE)
        self.assertEqual((ran.returncode, ran.stderr), (0, b""))
        with self.assertRaises(AttributeError):
            zxopt.nothing  # type: ignore[attr-defined]


class WithStandIns(unittest.TestCase):
    def setUp(self) -> None:
        for module in (zxopt.qiskit, zxopt.pyzx, zxopt.pytket):
            self.assertTrue(module.__doc__)
        stand_in = stand_ins.installed()
        stand_in.start()
        self.addCleanup(stand_in.stop)
        for name in ("ZxOpt", "ZxOptPlugin"):
            self.addCleanup(vars(zxopt.qiskit).pop, name, None)


class Qiskit(WithStandIns):
    """Circuits of Qiskit by stand-ins for `qiskit.qasm2.dumps`, `loads`, `copy_empty_like` and `compose`."""

    def circuit(self, loose: int = 0) -> stand_ins.QuantumCircuit:
        """Two T on the control of a CX between two registers, and measurements crosswise into two registers."""
        a, b = stand_ins.Register(1, "a"), stand_ins.Register(2, "b")
        c, d = stand_ins.Register(2, "c"), stand_ins.Register(1, "d")
        made = stand_ins.QuantumCircuit([a, b], [c, d], "mine", loose)
        made.metadata["key"] = "value"
        control, target = b.bits[1], made.qubits[0] if loose else a.bits[0]
        for name, *qubits in (("t", control), ("cx", control, target), ("t", control), ("h", target)):
            made.operations.append(Operation(name, tuple(qubits)))
        for qubit, bit in ((control, c.bits[0]), (target, d.bits[0])):
            made.operations.append(Operation("measure", (qubit,), (bit,)))
        return made

    def test_two_t(self) -> None:
        circuit = stand_ins.QuantumCircuit([stand_ins.Register(1, "q")])
        circuit.operations += [Operation("t", (circuit.qubits[0],))] * 2
        better = zxopt.optimise(circuit)
        self.assertEqual(better.operations, [Operation("s", (circuit.qubits[0],))])

    def test_registers_names_and_bits_stay(self) -> None:
        for make in (zxopt.optimise, zxopt.optimize, zxopt.teleport):
            for loose in (0, 1):
                circuit = self.circuit(loose)
                better = make(circuit)
                self.assertIsInstance(better, stand_ins.QuantumCircuit)
                self.assertEqual((better.name, better.metadata), ("mine", {"key": "value"}))
                for what in ("qregs", "cregs", "qubits", "clbits"):
                    self.assertEqual(getattr(better, what), getattr(circuit, what))
                self.assertEqual([it for it in better.operations if it.bits], circuit.operations[-2:])
                self.assertTrue(zxopt.same(circuit, better))
                self.assertEqual((zxopt.measures(circuit).t_count, zxopt.measures(better).t_count), (2, 0))

    def test_counts(self) -> None:
        self.assertEqual(zxopt.counts(self.circuit()).written.odd, 0)
        self.assertIn("measure q[2] -> c[0];\n", zxopt.optimise_counted(self.circuit()).text)

    def test_rounded_angles(self) -> None:
        circuit = stand_ins.QuantumCircuit([stand_ins.Register(1, "Q")])
        circuit.operations += [Operation("rz(0.7853981633974483)", (circuit.qubits[0],))] * 2
        self.assertEqual(zxopt.optimise(circuit).operations, [Operation("s", (circuit.qubits[0],))])
        self.assertEqual(zxopt.measures(circuit).t_count, 2)

    def test_registers_that_share_qubits(self) -> None:
        one = stand_ins.Register(2, "one")
        circuit = stand_ins.QuantumCircuit([one, stand_ins.Register(1, "other", one.bits[:1])])
        with self.assertRaises(ValueError):
            zxopt.optimise(circuit)

    def test_a_class_that_is_derived(self) -> None:
        class Mine(stand_ins.QuantumCircuit):
            pass

        circuit = Mine([stand_ins.Register(1, "q")])
        self.assertIsInstance(zxopt.optimise(circuit), Mine)

    def test_pass(self) -> None:
        make = zxopt.qiskit.ZxOpt
        self.assertIs(make, zxopt.qiskit.ZxOpt)
        self.assertTrue(issubclass(make, stand_ins.TransformationPass))
        self.assertEqual(pickle.loads(pickle.dumps(make(best=False))).best, False)
        circuit = self.circuit()
        for one in (make(), make(best=False), make(phases_alone=True), make(timeout=60)):
            better = one(circuit)
            self.assertEqual(zxopt.measures(better).t_count, 0)
            self.assertEqual(better.qregs, circuit.qregs)

    def test_a_pass_leaves_what_it_can_not_do(self) -> None:
        for name in ("pulse", "rz(0.3)", "reset"):
            circuit = stand_ins.QuantumCircuit([stand_ins.Register(1, "q")], name="odd")
            circuit.operations += [Operation("h", (circuit.qubits[0],)), Operation(name, (circuit.qubits[0],))]
            with self.subTest(name=name), self.assertLogs("zxopt.qiskit", "INFO") as said:
                self.assertIs(zxopt.qiskit.ZxOpt()(circuit), circuit)
            self.assertIn("odd stays as it is: ", said.output[0])

    def test_stage(self) -> None:
        plugin = zxopt.qiskit.ZxOptPlugin()
        self.assertIsInstance(plugin, stand_ins.PassManagerStagePlugin)
        free = types.SimpleNamespace(coupling_map=None, basis_gates=None, target=None)
        self.assertEqual(plugin.pass_manager(free, optimization_level=0).passes, [])
        (alone,) = plugin.pass_manager(free, optimization_level=2).passes
        self.assertFalse(alone.phases_alone)
        self.assertEqual(zxopt.measures(plugin.pass_manager(free).run(self.circuit())).t_count, 0)
        based = types.SimpleNamespace(coupling_map=None, basis_gates=["cx", "rz"], target=None)
        one, translator = plugin.pass_manager(based).passes
        self.assertEqual(translator.made_with, ("the session's library", ["cx", "rz"], None))
        for pairs in (types.SimpleNamespace(coupling_map=[[0, 1]], basis_gates=None, target=None), self.target([[0, 1]])):
            self.assertTrue(plugin.pass_manager(pairs).passes[0].phases_alone)
        self.assertFalse(plugin.pass_manager(self.target(None)).passes[0].phases_alone)

    def target(self, pairs: object) -> types.SimpleNamespace:
        target = types.SimpleNamespace(build_coupling_map=lambda: pairs)
        return types.SimpleNamespace(coupling_map=None, basis_gates=None, target=target)

    def test_entry_point(self) -> None:
        """pyproject.toml names the stage for Qiskit's own way to find it."""
        text = (PYTHON / "pyproject.toml").read_text(encoding="utf-8")
        self.assertIn('[project.entry-points."qiskit.transpiler.optimization"]\nzxopt = "zxopt.qiskit:ZxOptPlugin"\n', text)


class Pyzx(WithStandIns):
    """Circuits of PyZX by stand-ins for `to_qasm` and `from_qasm`."""

    def test_two_t(self) -> None:
        circuit = stand_ins.PyzxCircuit(HEAD + "qreg q[1];\nrz(0.25*pi) q[0];\nrz(0.25*pi) q[0];\n", "mine")
        for make in (zxopt.optimise, zxopt.teleport):
            better = make(circuit)
            self.assertIsInstance(better, stand_ins.PyzxCircuit)
            self.assertEqual((better.text, better.name), (HEAD + "qreg q[1];\ns q[0];\n", "mine"))
        self.assertTrue(zxopt.same(circuit, better))
        self.assertEqual(zxopt.measures(circuit).t_count, 2)

    def test_no_t_in_other_words(self) -> None:
        """PyZX counts `t` and `tdg` alone."""
        better = zxopt.optimise(stand_ins.PyzxCircuit(HEAD + "qreg q[1];\nt q[0];\ns q[0];\n"))
        self.assertEqual(better.text, HEAD + "qreg q[1];\ns q[0];\nt q[0];\n")


class Pytket(WithStandIns):
    """Circuits of pytket by stand-ins for `circuit_to_qasm_str`, `circuit_from_qasm_str` and `rename_units`."""

    def test_two_t(self) -> None:
        qubit = stand_ins.Qubit("q", 0)
        circuit = stand_ins.PytketCircuit([qubit], name="mine")
        circuit.operations += [Operation("t", (qubit,))] * 2
        better = zxopt.optimise(circuit)
        self.assertEqual((better.operations, better.name), ([Operation("s", (qubit,))], "mine"))

    def test_names_stay(self) -> None:
        left, right, other = stand_ins.Qubit("z", 0), stand_ins.Qubit("a", 1), stand_ins.Qubit("a", 0)
        bits = stand_ins.ClassicalBit("m", 0), stand_ins.ClassicalBit("k", 0)
        circuit = stand_ins.PytketCircuit([left, right, other], bits)
        for name, *qubits in (("t", left), ("cx", left, right), ("t", left), ("h", other)):
            circuit.operations.append(Operation(name, tuple(qubits)))
        measurements = [Operation("measure", (left,), bits[:1]), Operation("measure", (right,), bits[1:])]
        circuit.operations += measurements
        for make in (zxopt.optimise, zxopt.teleport):
            better = make(circuit)
            self.assertEqual((better.qubits, better.bits), (circuit.qubits, circuit.bits))
            self.assertEqual([it for it in better.operations if it.bits], measurements)
            self.assertTrue(zxopt.same(circuit, better))
            self.assertEqual(zxopt.measures(better).t_count, 0)


    def test_many_bits(self) -> None:
        """The program writes one register for all bits, and pytket reads one of 32 unless it is told."""
        bits = [stand_ins.ClassicalBit(name, at) for name in "kl" for at in range(30)]
        circuit = stand_ins.PytketCircuit([stand_ins.Qubit("q", 0)], bits)
        circuit.operations.append(Operation("measure", (circuit.qubits[0],), (bits[59],)))
        better = zxopt.optimise(circuit)
        self.assertEqual((better.bits, better.operations), (bits, circuit.operations))


class RealLibraries(unittest.TestCase):
    """The same with the libraries themselves, where they are installed."""

    TEXT = HEAD + "qreg a[1];\nqreg b[2];\nt b[1];\ncx b[1],a[0];\nt b[1];\nh a[0];\n"

    @unittest.skipUnless(importlib.util.find_spec("qiskit"), "Qiskit isn't installed")
    def test_qiskit(self) -> None:
        qasm2 = importlib.import_module("qiskit.qasm2")
        circuit = qasm2.loads(self.TEXT)
        better = zxopt.optimise(circuit)
        self.assertEqual((better.qregs, zxopt.measures(better).t_count), (circuit.qregs, 0))
        transpiler = importlib.import_module("qiskit.transpiler")
        operator = importlib.import_module("qiskit.quantum_info").Operator
        for made in (better, transpiler.PassManager([zxopt.qiskit.ZxOpt()]).run(circuit)):
            self.assertTrue(operator(circuit).equiv(operator(made)))

    @unittest.skipUnless(importlib.util.find_spec("pyzx"), "PyZX isn't installed")
    def test_pyzx(self) -> None:
        circuit = importlib.import_module("pyzx").Circuit.from_qasm(self.TEXT)
        better = zxopt.optimise(circuit)
        self.assertEqual(better.tcount(), 0)
        self.assertTrue(circuit.verify_equality(better))

    @unittest.skipUnless(importlib.util.find_spec("pytket"), "pytket isn't installed")
    def test_pytket(self) -> None:
        circuit = importlib.import_module("pytket.qasm").circuit_from_qasm_str(self.TEXT)
        better = zxopt.optimise(circuit)
        self.assertEqual(better.qubits, circuit.qubits)
        self.assertTrue(zxopt.same(circuit, better))


if __name__ == "__main__":
    unittest.main()
