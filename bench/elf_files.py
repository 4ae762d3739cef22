# Makes large ELF files, and measures a program that reads them; for the scripts beside it.
import os, resource, struct, subprocess, sys

def elf(given, functions, imported=()):
    """The file with these sections (name, type, flags, address, bytes), functions (name, start, size) and imports."""
    names, table = b"\0", []
    strings, symbols = b"\0", [bytes(24)]
    places = {}
    for name, start, size in functions:
        if name not in places:
            places[name] = len(strings)
            strings += name + b"\0"
        symbols.append(struct.pack("<IBBHQQ", places[name], 0x12, 0, 1, start, size))
    linked, linkable = b"\0", [bytes(24)]
    for name in imported:
        linkable.append(struct.pack("<IBBHQQ", len(linked), 0x12, 0, 0, 0, 0))
        linked += name + b"\0"
    n = len(given)
    parts = [(name, kind, flags, address, data, {4: n + 1}.get(kind, 0), {4: 24, 19: 8}.get(kind, 0)) for name, kind, flags, address, data in given]
    parts += [
        (b".dynsym", 11, 0, 0, b"".join(linkable), n + 2, 24), (b".dynstr", 3, 0, 0, linked, 0, 0),
        (b".symtab", 2, 0, 0, b"".join(symbols), n + 4, 24), (b".strtab", 3, 0, 0, strings, 0, 0),
        (b".shstrtab", 3, 0, 0, None, 0, 0)]
    for part in parts:
        table.append(len(names))
        names += part[0] + b"\0"
    body, headers = bytearray(64), bytearray(64)
    for place, (name, kind, flags, address, data, link, entry) in zip(table, parts):
        data = names if data is None else data
        body += bytes(-len(body) % 8)
        headers += struct.pack("<IIQQQQIIQQ", place, kind, flags, address, len(body), len(data), link, 0, 8, entry)
        body += data
    body += bytes(-len(body) % 8)
    body[:64] = b"\x7fELF\x02\x01\x01" + bytes(9) + struct.pack(
        "<HHIQQQIHHHHHH", 3, 62, 1, 0x1000, 0, len(body), 0, 64, 0, 0, 64, len(parts) + 1, len(parts))
    return bytes(body + headers)

def measured(program, name, addresses=0):
    """Runs a program on a file, with so many bytes of addresses if not 0, and prints its peak of memory, in a small process of
    its own, since the peak of a process counts that of the one from which it was forked."""
    subprocess.run([sys.executable, __file__, program, name, str(addresses)], check=True)

def time(program, folder, what, count, data, addresses=0):
    assert len(data) <= 1 << 24, (what, len(data))
    with open(f"{folder}/file", "wb") as file:
        file.write(data)
    print(f"{what} {count}: {len(data)} bytes", flush=True)
    measured(program, f"{folder}/file", addresses)

def main():
    program, name, addresses = sys.argv[1], sys.argv[2], int(sys.argv[3])

    def limit():
        if addresses:
            resource.setrlimit(resource.RLIMIT_AS, (addresses, addresses))

    child = subprocess.Popen([program, name], preexec_fn=limit)
    _, status, used = os.wait4(child.pid, 0)
    print(f"  peak of memory: {used.ru_maxrss >> 10} MiB, {used.ru_maxrss * 1024 / os.path.getsize(name):.1f} bytes a byte", f"status {status}" if status else "")

if __name__ == "__main__":
    main()
