"""QEMU, driven over its debugger stub, an instruction at a time.

The simulated computer is a core and 4,096 bytes of memory, and nothing else. The debugger stub writes the program and
the registers, steps, and reads what came of it. The test interface moves the core's external interrupt input.
"""
import pathlib
import socket
import subprocess
import tempfile

PROGRAM = "qemu-system-riscv32"
# RV32I with M and the machine-level registers; nothing else, so that a word outside these is illegal there too
CORE = ("rv32,i=true,e=false,m=true,a=false,f=false,d=false,c=false,s=false,u=false,h=false,v=false,mmu=false,"
        "pmp=true,x-epmp=true,Zicsr=true,Zifencei=false,Zihintpause=false,zba=false,zbb=false,zbc=false,zbs=false,"
        "sstc=false,debug=false,pmu-num=0")
MEMORY = 4096
EXTERNAL = 11
INTERRUPT = 0x80000000 | EXTERNAL
# no cause: it is put into mcause before each step, so that a trap is seen even if it has the cause of the one before
NO_CAUSE = 0x5a5a5a5a
# a register of the control space has this number plus its address at the debugger stub
CONTROL = 34
MSTATUS, MIE, MTVEC, MEPC, MCAUSE = (CONTROL + a for a in (0x300, 0x304, 0x305, 0x341, 0x342))
PMPCFG0, PMPADDR0, MSECCFG = (CONTROL + a for a in (0x3a0, 0x3b0, 0x747))
PC = 32
MACHINE_MODE = 3 << 11
MIE_BIT, MPIE_BIT = 1 << 3, 1 << 7


class Simulator:
    def __init__(self, words, pc, vector):
        """A simulator of its own for the program, so that nothing stays from another."""
        self.folder = tempfile.TemporaryDirectory()
        ends = [self.listen(name) for name in ("stub", "test")]
        self.process = subprocess.Popen([
            PROGRAM, "-accel", "tcg", "-machine", "none,memory-backend=ram0",
            "-object", f"memory-backend-ram,id=ram0,size={MEMORY}", "-cpu", CORE, "-nodefaults", "-display", "none", "-S",
            "-chardev", f"socket,id=stub,path={self.path('stub')}", "-gdb", "chardev:stub",
            "-chardev", f"socket,id=qtest,path={self.path('test')}", "-qtest", "chardev:qtest", "-qtest-log", "/dev/null"])
        self.stub, self.test = (end.accept()[0] for end in ends)
        for end in ends:
            end.close()
        self.received = b""
        try:
            self.load(words, pc, vector)
        except BaseException:
            # nobody else knows of the process yet
            self.__exit__()
            raise

    def path(self, name):
        return str(pathlib.Path(self.folder.name) / name)

    def listen(self, name):
        end = socket.socket(socket.AF_UNIX)
        end.bind(self.path(name))
        end.listen(1)
        end.settimeout(60)
        return end

    def __enter__(self):
        return self

    def __exit__(self, *_):
        self.process.kill()
        self.process.wait()
        self.stub.close()
        self.test.close()
        self.folder.cleanup()

    def ask(self, text):
        """Sends a packet to the debugger stub, and answers the packet that comes back."""
        data = text.encode()
        self.stub.sendall(b"$%s#%02x" % (data, sum(data) & 255))
        while True:
            begin, end = self.received.find(b"$"), self.received.find(b"#")
            if end >= 0 and len(self.received) >= end + 3:
                answer, self.received = self.received[begin + 1:end], self.received[end + 3:]
                self.stub.sendall(b"+")
                return answer.decode()
            more = self.stub.recv(65536)
            if not more:
                raise RuntimeError("the simulator went away")
            self.received += more

    def tell(self, text):
        answer = self.ask(text)
        if answer != "OK":
            raise RuntimeError(f"{text}: {answer}")

    def write(self, number, value):
        self.tell(f"P{number:x}={value.to_bytes(4, 'little').hex()}")

    def read(self, number):
        return int.from_bytes(bytes.fromhex(self.ask(f"p{number:x}")), "little")

    def registers(self):
        """The 32 registers, then pc."""
        data = bytes.fromhex(self.ask("g"))
        return [int.from_bytes(data[i:i + 4], "little") for i in range(0, 4 * 33, 4)]

    def load(self, words, pc, vector):
        # the stub has the control registers for those alone who asked for the list of registers
        self.ask("qXfer:features:read:target.xml:0,fff")
        # step by one instruction, with interrupts on
        self.tell("Qqemu.sstep=1")
        for i, w in enumerate(words):
            self.tell(f"M{4 * i:x},4:{w.to_bytes(4, 'little').hex()}")
        # a fetch outside the program is an access fault, in machine mode too; QEMU lets fetches through a region of no
        # bytes, so no words have no region
        reach = 0x0f if words else 0
        self.write(PMPADDR0, len(words))
        self.write(PMPCFG0, reach)
        self.write(MSECCFG, 2)
        self.write(MTVEC, vector)
        self.write(MEPC, 0)
        self.write(MIE, 1 << EXTERNAL)
        self.write(MSTATUS, MACHINE_MODE | MIE_BIT | MPIE_BIT)
        for number in range(1, 32):
            self.write(number, 0)
        self.write(PC, pc)
        for number, value in ((MTVEC, vector), (PMPADDR0, len(words)), (PMPCFG0, reach), (MSECCFG, 2)):
            assert self.read(number) == value, (number, value)
        self.line(False)

    def line(self, up):
        self.test.sendall(f"set_irq_in /machine/unattached/device[0] unnamed-gpio-in {EXTERNAL} {int(up)}\n".encode())
        answer = self.test.recv(100)
        assert answer == b"OK\n", answer

    def step(self):
        """One step of the simulator: the cause if it was a trap or an interrupt, or else None."""
        self.write(MCAUSE, NO_CAUSE)
        answer = self.ask("s")
        assert answer.startswith("T05"), answer
        cause = self.read(MCAUSE)
        return None if cause == NO_CAUSE else cause

    def stay_in_machine_mode(self):
        """After MRET: the machine has no other mode, and QEMU would go to user mode with the next one."""
        self.write(MSTATUS, self.read(MSTATUS) | MACHINE_MODE)

    def trap_state(self):
        """mepc, MIE and MPIE."""
        status = self.read(MSTATUS)
        return self.read(MEPC), int(status & MIE_BIT != 0), int(status & MPIE_BIT != 0)
