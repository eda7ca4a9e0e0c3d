"""Round trips of a source through its chunk and back, by a built `luasuite`."""

import os
import subprocess


class Chunk:
    """Reads a chunk of this suite's own layout: little endian, sizes of 8 bytes."""

    def __init__(self, data):
        self.data, self.at = data, 12

    def number(self, size):
        value = int.from_bytes(self.data[self.at:self.at + size], "little")
        self.at += size
        return value

    def text(self):
        size = self.number(8)
        self.at += size
        return self.data[self.at - size:self.at]

    def items(self, read):
        return tuple(read() for _ in range(self.number(4)))

    def constant(self):
        tag = self.number(1)
        if tag == 1:
            return tag, self.number(1)
        if tag == 3:
            return tag, self.number(8)
        return tag, self.text() if tag == 4 else None

    def function(self):
        """A function without the numbers of its lines."""
        source = self.text()
        self.at += 8
        shape = self.number(4)
        code = self.items(lambda: self.number(4))
        constants = self.items(self.constant)
        inner = self.items(self.function)
        lines = len(self.items(lambda: self.number(4)))
        locals_ = self.items(lambda: (self.text(), self.number(4), self.number(4)))
        return source, shape, code, constants, inner, lines, locals_, self.items(self.text)


def without_lines(data):
    return Chunk(data).function()


class Trips:
    """Calls of the program in a folder of its own."""

    def __init__(self, program, folder):
        self.program, self.folder = os.path.abspath(program), folder

    def path(self, name):
        return os.path.join(self.folder, name)

    def put(self, name, data):
        with open(self.path(name), "wb") as file:
            file.write(data)

    def get(self, name):
        with open(self.path(name), "rb") as file:
            return file.read()

    def call(self, *words):
        done = subprocess.run([self.program, *words], cwd=self.folder, stdin=subprocess.DEVNULL, capture_output=True, timeout=600)
        return done.returncode, done.stderr.decode("latin-1").strip()

    def compiled(self, source):
        """The chunk of a source, or None where it is refused."""
        self.put("source.lua", source)
        status, _ = self.call("compile", "source.lua", "first.luac")
        return self.get("first.luac") if status == 0 else None

    def decompiled(self, chunk):
        """The status, the line on standard error, and the text where there is one."""
        self.put("given.luac", chunk)
        if os.path.exists(self.path("text.lua")):
            os.remove(self.path("text.lua"))
        status, line = self.call("decompile", "given.luac", "text.lua")
        return status, line, self.get("text.lua") if status == 0 else None

    def is_source_of(self, text, chunk):
        """Whether the chunk of a text is this one, lines aside. The source name is that of `source.lua`."""
        again = self.compiled(text)
        return again is not None and without_lines(again) == without_lines(chunk)
