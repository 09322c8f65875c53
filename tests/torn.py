"""torn.py PROGRAM: runs the program where list.bin is a terminal that gives the bytes of standard input, and then a read that fails.

A file that ends gives a read of none; a failed one (EIO) comes from a terminal whose other side is closed while the program waits for more.
"""
import fcntl, os, pty, struct, subprocess, sys, termios, time, tty

data = sys.stdin.buffer.read()
master, slave = pty.openpty()
tty.setraw(slave)  # bytes as they are, none of them a signal or an end
os.symlink(os.ttyname(slave), "list.bin")
program = subprocess.Popen([sys.argv[1]], stdin=subprocess.DEVNULL)
while data:
    data = data[os.write(master, data[:1024]):]


def waits():
    unread = struct.unpack("i", fcntl.ioctl(slave, termios.FIONREAD, bytes(4)))[0]
    with open(f"/proc/{program.pid}/stat") as stat:
        state = stat.read().rpartition(") ")[2][0]
    return unread == 0 and state == "S"


# The bytes must have been read and the next read begun, for half a second: what is on the way when a terminal is closed may be lost, and a read begun later
# is the end of a file. A program that never waits is ended by the caller.
quiet = 0
while quiet < 10:
    time.sleep(0.05)
    quiet = quiet + 1 if waits() else 0
os.close(slave)
os.close(master)
os.remove("list.bin")
sys.exit(program.wait())
