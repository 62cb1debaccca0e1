"""What the tests on a line share: two ptys with a trace, which can lose bytes and be as slow as a serial line; the
program on it; checks.

The server's program has one pty, the host the other. Bytes go over in both directions, and are put together to FT1.2 units as their
sender meant them: an acknowledgement E5, a fixed frame, a data frame."""

import math
import os
import select
import subprocess
import sys
import termios
import threading
import time
import tty

HERE = os.path.dirname(os.path.abspath(__file__))
TABLES = os.path.join(HERE, 'tables.txt')
ACK = bytes([0xE5])
RESET = bytes.fromhex('10404016')
SERVER_RESET = bytes.fromhex('10C0C016')


def frame(control, message):
    """The data frame with this control byte and message."""
    body = bytes([control]) + bytes(message)
    return bytes([0x68, len(body), len(body), 0x68]) + body + bytes([sum(body) % 256, 0x16])


def is_data(unit):
    return unit.bytes[0] == 0x68


class Unit:
    """Bytes that one side sent as one thing, and the places in it that were lost on the way."""

    def __init__(self, side):
        self.side = side
        self.bytes = b''
        self.lost = []
        self.time = 0.0

    def is_whole(self):
        if self.bytes[0] == 0x10:
            return len(self.bytes) == 4
        if self.bytes[0] == 0x68:
            return len(self.bytes) > 1 and len(self.bytes) == self.bytes[1] + 6
        return True

    def __str__(self):
        text = ' '.join('(%02X)' % b if i in self.lost else '%02X' % b for i, b in enumerate(self.bytes))
        return '%8.3f %-6s %s' % (self.time, self.side, text)


class Line:
    """Two ptys and what goes over between them: at once, or in the time that it takes at a baud rate. Then bytes arrive
    in lots, as drivers hand them over: so many at a time, or what there is whenever the latency timer has run down."""

    def __init__(self, baud=None, lot=4096, latency=None):
        self.baud, self.lot, self.latency = baud, lot, latency
        self.free = {'server': 0.0, 'host': 0.0}  # when this side has sent all that it has begun to send
        self.waiting = {'server': [], 'host': []}  # what the other side has not yet got: when it will, and the bytes
        self.late = 0.0  # how much later than due some bytes went over: a busy machine makes pauses of its own
        self.masters, self.slaves, self.paths = {}, {}, {}
        for side in ('server', 'host'):
            # the slave stays open here, so that the pty outlives the program that uses it
            self.masters[side], self.slaves[side] = os.openpty()
            self.paths[side] = os.ttyname(self.slaves[side])
        tty.setraw(self.slaves['host'])
        self.units = []  # whole units, in the order of their last bytes
        self.open = {'server': None, 'host': None}
        self.losses = []  # [side, is it such a unit, place in it, how often]
        self.begun = time.monotonic()
        self.changed = threading.Condition()
        self.is_running = True
        self.thread = threading.Thread(target=self.relay, daemon=True)
        self.thread.start()

    def relay(self):
        while self.is_running:
            dues = [lots[0][0] - time.monotonic() for lots in self.waiting.values() if lots]
            ready = select.select(list(self.masters.values()), [], [], max(0, min(dues + [0.1])))[0]
            for side, other in (('server', 'host'), ('host', 'server')):
                lots = self.waiting[side]
                if self.masters[side] in ready:
                    lots += self.lots_of(side, os.read(self.masters[side], 4096))
                while lots and lots[0][0] <= time.monotonic():
                    due, data = lots.pop(0)
                    self.late = max(self.late, time.monotonic() - due) if self.baud else 0.0
                    self.deliver(side, other, data)

    def lots_of(self, side, data):
        """These bytes as they arrive: when, and which."""
        if self.baud is None:
            return [(0, data)]
        lots = []
        for at in range(0, len(data), self.lot):
            lot = data[at:at + self.lot]
            self.free[side] = max(self.free[side], time.monotonic()) + len(lot) * 11 / self.baud
            due = math.ceil(self.free[side] / self.latency) * self.latency if self.latency else self.free[side]
            lots.append((due, lot))
        return lots

    def deliver(self, side, other, data):
        with self.changed:
            passed = bytes(b for b in data if self.takes(side, b))
            self.changed.notify_all()
        if passed:
            os.write(self.masters[other], passed)

    def takes(self, side, byte):
        """Notes a byte; returns whether it goes over."""
        unit = self.open[side] or Unit(side)
        place = len(unit.bytes)
        unit.bytes += bytes([byte])
        is_lost = False
        for loss in self.losses:
            if loss[0] == side and loss[1] == unit.bytes[0] and loss[2] == place and loss[3] > 0:
                loss[3] -= 1
                is_lost = True
                unit.lost.append(place)
                break
        self.open[side] = unit
        if unit.is_whole():
            unit.time = time.monotonic() - self.begun
            self.units.append(unit)
            self.open[side] = None
        return not is_lost

    def lose(self, side, first, place, times=1):
        """Loses, in the next units of this side that begin with the byte `first`, the byte at this place."""
        with self.changed:
            self.losses.append([side, first, place, times])

    def wait(self, start, is_there, seconds):
        """Waits until the units from number `start` on are such; returns them in any case."""
        end = time.monotonic() + seconds
        with self.changed:
            while not is_there(self.units[start:]):
                left = end - time.monotonic()
                if left <= 0:
                    break
                self.changed.wait(left)
            return self.units[start:]

    def wait_quiet(self, seconds, most=10):
        """Waits until no unit came for so long."""
        end = time.monotonic() + most
        count = -1
        while count != len(self.units) and time.monotonic() < end:
            count = len(self.units)
            time.sleep(seconds)

    def say(self, data):
        """The test itself is the host, and sends this."""
        os.write(self.slaves['host'], data)

    def drop_input(self, side):
        """Forgets what waits on this side's pty to be read, and a unit that was cut short."""
        termios.tcflush(self.slaves[side], termios.TCIFLUSH)
        with self.changed:
            self.open[side] = None

    def close(self):
        self.is_running = False
        self.thread.join()
        for side in self.masters:
            os.close(self.masters[side])
            os.close(self.slaves[side])


class Serve:
    """The program on the line's server side."""

    def __init__(self, program, line, tables=TABLES, options=()):
        self.process = subprocess.Popen([program, *options, line.paths['server'], tables], stdin=subprocess.PIPE, stdout=subprocess.PIPE,
                                        stderr=subprocess.PIPE, text=True)
        self.first = self.process.stdout.readline()

    def type(self, text):
        self.process.stdin.write(text)
        self.process.stdin.flush()

    def end(self, number):
        """Ends it by this signal; returns its exit status and what it wrote since."""
        self.process.send_signal(number)
        try:
            out, errors = self.process.communicate(timeout=5)
        except subprocess.TimeoutExpired:
            self.process.kill()
            self.process.communicate()
            return None, '', ''
        return self.process.returncode, out, errors


class Checks:
    def __init__(self):
        self.passed = self.failed = 0

    def check(self, text, fact, units=()):
        """One line for each check; where it fails, also what went over the line."""
        if fact:
            self.passed += 1
            print('ok: ' + text, flush=True)
        else:
            self.failed += 1
            print('FAILED: ' + text, flush=True)
            for unit in units:
                print('    %s' % unit, flush=True)
        return bool(fact)

    def end(self, remark=''):
        print('%d ok, %d failed%s' % (self.passed, self.failed, remark))
        sys.exit(1 if self.failed else 0)


def give_up(text):
    print('FAILED: ' + text)
    print('0 ok, 1 failed')
    sys.exit(1)


def found_archive(words):
    """The archive that the command line names, or the one that rt makes."""
    if words:
        return words[0]
    made = subprocess.run([os.path.join(HERE, 'archive')], stdout=subprocess.PIPE, text=True)
    return made.stdout.strip() if made.returncode == 0 else give_up('the archive is made')


def built_serve(folder, words):
    """Compiles the program into the folder, over the archive; returns its path."""
    program = os.path.join(folder, 'serve')
    if subprocess.run([os.path.join(HERE, 'build_serve'), found_archive(words), program]).returncode != 0:
        give_up('host/serve.c compiles')
    return program
