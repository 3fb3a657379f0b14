"""The text that mmu-dump has to write, made from the model's answers: lines that have to stand in it in this order."""

RULES = ["real mode", "block", "no-execute", "no match", "guarded", "page protection", "page done"]
RIGHTS = {"none": "nothing", "read": "reading only", "write": "reading and writing"}
NOTES = {"single": "", "first": "first of several", "same": "same as", "contradicted": "contradicted",
         "contradicts": "contradicts", "unreached": "no page"}
PP = ["00", "01", "10", "11"]
GAP = " " * 17


def wimg(bits):
    return "".join(letter if bits & 8 >> place else "-" for place, letter in enumerate("WIMG"))


def size(count):
    for unit, name in [(1 << 30, "GB"), (1 << 20, "MB"), (1 << 10, "KB")]:
        if count % unit == 0:
            return f"{count // unit} {name}"
    return f"{count} bytes"


def plural(count):
    return f"{count} byte" + ("" if count == 1 else "s")


def users(block):
    return " and ".join(name for name in ("supervisor", "user") if block[name])


# ---- check -----------------------------------------------------------------------------------------

def names(registers):
    pairs = (registers["bytes"] - 68) // 16
    sides = [f"{side}BAT{pair}{half}" for side in "ID" for pair in range(pairs) for half in "UL"]
    return ["SDR1"] + [f"SR{n}" for n in range(16)] + sides


def meaning_of_block(block, lower):
    if not block["on"]:
        return "off"
    if lower:
        where = (f"physical {block['physical']:08X}-{block['physical'] + block['length'] - 1:08X}, "
                 if block["shaped"] else "")
        return where + f"WIMG {wimg(block['wimg'])}, PP {PP[block['pp']]}: {RIGHTS[block['rights']]}"
    if not block["shaped"]:
        return f"on for {users(block)}, but the pair breaks a rule"
    end = block["start"] + block["length"] - 1
    return f"{block['start']:08X}-{end:08X}, {size(block['length'])}, for {users(block)}"


def meaning(registers, number):
    word = registers["words"][number]
    if number == 0:
        origin, mask = word >> 16, word & 0x1FF
        said = f"origin {origin:04X}, mask {mask:03X}"
        if mask & (mask + 1) or origin & mask:
            return said
        length = 65536 * (mask + 1)
        return said + (f": table at {origin << 16:08X}-{(origin << 16) + length - 1:08X}, {size(length)}, "
                       f"{length // 64} groups")
    if number < 17:
        segment = registers["segments"][number - 1]
        said = f"VSID {segment['vsid']:06X}, Ks {segment['ks']}, Kp {segment['kp']}, N {segment['n']}"
        return said + (", T 1" if word >> 31 else "")
    return meaning_of_block(registers["blocks"][(number - 17) // 2], (number - 17) % 2)


def broken(registers):
    of_word = names(registers)
    return [f"  refusal {rule['refusal']}  word {rule['word']:2}, byte {4 * rule['word']:3}, {of_word[rule['word']]:6} "
            f"{registers['words'][rule['word']]:08X}: " for rule in registers["broken"]]


def check(wanted, result_names):
    registers = wanted["registers"]
    lines = [f"{number:4} {4 * number:4} {name:6} {registers['words'][number]:08X}  {meaning(registers, number)}"
             for number, name in enumerate(names(registers))]
    if "table" in wanted:
        table = wanted["table"]
        lines.append(f"{table['bytes']} bytes, {table['groups']} groups, {table['used']} of {8 * table['groups']} "
                     "entries with V = 1")
    else:
        lines.append("not read, since SDR1 breaks a rule")
    return lines + [f"mmu_check: {registers['result']}, {result_names[registers['result']]}"] + broken(registers)


# ---- pages and group -------------------------------------------------------------------------------

def page(one):
    entry = one["entry"]
    address = f"{one['addresses'][0]:08X}" if one["addresses"] else "--------"
    index = "----" if entry["page_index"] is None else f"{entry['page_index']:04X}"
    note = NOTES[one["state"]]
    if "first_group" in one:
        note += f" {one['first_group']:05X}.{one['first_entry']}"
    digits = "".join(f"{address >> 28:X}" for address in one["addresses"])
    line = (f"{address} {entry['vsid']:06X} {index} {entry['frame']:05X} {wimg(entry['wimg'])} {PP[entry['pp']]} "
            f"{one['key0']:5} {one['key1']:5} {'R' if entry['r'] else '-'} {'C' if entry['c'] else '-'} "
            f"{entry['group']:05X} {entry['entry']} {entry['h']} {digits:16} {note}")
    return line.rstrip()


def pages(wanted, result_names):
    states = [one["state"] for one in wanted["pages"]]
    absent = [one for one in wanted["pages"] if not one["addresses"] and one["state"] != "unreached"]
    firsts = sum(state in ("single", "first", "contradicted") for state in states)
    lines = ["address  VSID   page frame WIMG PP key 0 key 1 R C group e H segments         note"]
    lines += [page(one) for one in wanted["pages"]]
    lines += [f"{len(states)} entries with V = 1 in {firsts} pages", f"{len(absent)} of a page that no segment",
              f"{states.count('unreached')} that no page reaches", f"{states.count('same')} duplicates that agree",
              f"{states.count('contradicted')} pages with contradicting matches"]
    if wanted["result"]:
        lines.append(f"break a rule: {result_names[wanted['result']]}")
    return lines


def picture(group, stars=()):
    def row(name, of_entry, empty):
        cells = [of_entry(entry) if entry["v"] else empty for entry in group["entries"]]
        return f"  {name:12}  |" + "".join(f"{cell:9}|" for cell in cells)

    heads = "".join(f"    {n}{'*' if (group['group'], n) in stars else ' '}   |" for n in range(8))

    def index(entry):
        return "none" if entry["page_index"] is None else f"{entry['page_index']:04X}"
    return [f"  group {group['group']:05X}   |{heads}",
            row("VSID", lambda entry: f" {entry['vsid']:06X}", "    --"),
            row("page, H", lambda entry: f" {index(entry)}  {entry['h']}", ""),
            row("frame, marks", lambda entry: f" {entry['frame']:05X} {'r' if entry['r'] else ' '}"
                f"{'c' if entry['c'] else ' '}", ""),
            row("WIMG, PP", lambda entry: f" {wimg(entry['wimg'])} {PP[entry['pp']]}", "")]


def group(wanted, _):
    last = wanted["groups"][0]["group"] + wanted["groups"][1]["group"]
    lines = []
    for one in wanted["groups"]:
        lines.append(f"group {one['group']:05X} of 00000-{last:05X}: byte {64 * one['group']} of the table, address "
                     f"{one['address']:08X}, {one['used']} of 8 entries with V = 1")
        lines += picture(one)
    return lines


# ---- why -------------------------------------------------------------------------------------------

def part_lines(wanted, part):
    real, kind = wanted["real"], wanted["kind"]
    bit, side = ("IR", "I") if kind == "fetch" else ("DR", "D")
    lines = [f"  1 Real mode    {bit} is {'off' if real else 'on'}"]
    if real:
        return lines
    state = "user" if wanted["user"] else "supervisor"
    ends = {"elsewhere": f"does not cover {part['address']:08X}.", "covers": f"covers {part['address']:08X}.",
            "other state": f"is not valid for the {state}."}
    lines += [(f"{side}BAT{pair} ", ends[cover]) for pair, cover in enumerate(part["blocks"]) if cover != "off"]
    if "off" in part["blocks"]:
        lines.append(f"{part['blocks'].count('off')} of {len(part['blocks'])} {side}BAT pairs are off.")
    if "segment" not in part:
        return lines
    word = part["segment"]
    lines.append(f"  3 Segment      SR{part['address'] >> 28} {word:08X}, by the first digit: VSID {part['vsid']:06X}, "
                 f"Ks {word >> 30 & 1}, Kp {word >> 29 & 1}, N {word >> 28 & 1}.")
    return lines + (search_lines(wanted, part, state) if "hash" in part else [GAP + "N is one"])


def rights_of(key, pp):
    """By the manual's table of keys and PP, with what a page's rights are called."""
    return ("reading only" if pp == 3 else "reading and writing") if key == 0 else \
        ("nothing", "reading only", "reading and writing", "reading only")[pp]


def search_lines(wanted, part, state):
    lines = [f"  4 Search       Page index {part['page_index']:04X}. Hash: VSID's low 19 bits "
             f"{part['vsid'] & 0x7FFFF:05X} xor page index = {part['hash']:05X}.",
             GAP + f"Primary group {part['primary']:05X} at {part['primary_address']:08X}, secondary "
             f"{part['secondary']:05X} at {part['secondary_address']:08X}.",
             GAP + f"Wanted: V 1, VSID {part['vsid']:06X}, API {part['page_index'] >> 10:02X}"]
    stars = {(entry["group"], entry["entry"]) for entry in part["matches"]}
    for number in (part["primary"], part["secondary"]):
        heads = "".join(f"    {n}{'*' if (number, n) in stars else ' '}   |" for n in range(8))
        lines.append(f"  group {number:05X}   |{heads}")
    for entry in part["matches"]:
        lines.append(GAP + f"Match: entry {entry['entry']} of the {'secondary' if entry['h'] else 'primary'} group "
                     f"{entry['group']:05X}, {entry['first']:08X} {entry['second']:08X}: frame {entry['frame']:05X}.")
    if not part["matches"]:
        return lines + [GAP + "No entry of the two groups matches."]
    if part["contradicts"]:
        return lines + [GAP + "They contradict"]
    first = part["matches"][0]
    lines.append("  5 Guarded      " + (f"WIMG {wimg(first['wimg'])}: G is" if wanted["kind"] == "fetch" else "Asked"))
    if part["rule"] >= 5:
        lines.append(f"  6 Protection   {'Kp' if wanted['user'] else 'Ks'} is {part['key']}, the {state}'s key: "
                     f"PP {PP[first['pp']]} allows {rights_of(part['key'], first['pp'])}. Asked: {wanted['kind']}.")
    if part["rule"] == 6:
        lines.append(f"  7 Done         Frame {first['frame']:05X} with the address's low 12 bits "
                     f"{part['address'] & 0xFFF:03X}.")
    return lines


def answer_lines(wanted, result_names):
    result = wanted["result"]
    lines = [f"Answer: {result}, {result_names[result]}"]
    if result == 0:
        lines.append(f"  physical {wanted['physical']:08X}, {plural(wanted['bytes'])}, WIMG "
                     f"{wimg(wanted['attributes'])}")
        if wanted["second_bytes"]:
            lines.append(f"  physical {wanted['second_physical']:08X}, {plural(wanted['second_bytes'])} behind the "
                         f"page edge, WIMG {wimg(wanted['second_attributes'])}")
    elif result in (64, 65):
        word, address = ("DSISR", "DAR ") if result == 64 else ("SRR1 ", "SRR0")
        lines += [f"  {word}    {wanted['fault']:08X}: ", f"  {address}     {wanted['effective']:08X}",
                  f"  vector   {wanted['offset']:05X}"]
    if result in (0, 64, 65):
        record = f"  rule     {wanted['rule']}, {RULES[wanted['rule']]}"
        if wanted["rule"] == 1:
            record += f": {'I' if wanted['kind'] == 'fetch' else 'D'}BAT{wanted['detail']}"
        if wanted["rule"] >= 4:
            record += f": entry {wanted['entry']} of group {wanted['group']:05X}"
        if wanted["rule"] >= 5:
            record += f", key {wanted['detail'] >> 2}, PP {PP[wanted['detail'] & 3]}"
        lines.append(record)
    for mark in wanted["marks"]:
        lines.append(f"  marks    entry {mark['entry']} of group {mark['group']:05X}: second word {mark['before']:08X} "
                     f"becomes {mark['after']:08X}")
    return lines


def why(wanted, result_names):
    lines = [f"A {wanted['kind']} of {plural(wanted['length'])} at {wanted['address']:08X} by the "
             f"{'user' if wanted['user'] else 'supervisor'}{', in real mode' if wanted['real'] else ''}"]
    over_edge = wanted["address"] % 4096 + wanted["length"] > 4096
    for number, part in enumerate(wanted["parts"], 1):
        if over_edge:
            lines.append(f"Part {number} of 2: {plural(part['length'])} at {part['address']:08X}")
        lines += part_lines(wanted, part)
    return lines + answer_lines(wanted, result_names)


# ---- diff ------------------------------------------------------------------------------------------

def fields(entry):
    return (f"{entry['frame']:05X} {wimg(entry['wimg'])} {PP[entry['pp']]} {'R' if entry['r'] else '-'}"
            f"{'C' if entry['c'] else '-'} {entry['group']:05X}.{entry['entry']}")


def change(one):
    entry = one.get("before") or one["after"]
    index = "----" if entry["page_index"] is None else f"{entry['page_index']:04X}"
    mark = {"gone": "-", "added": "+", "changed": "~"}[one["change"]]
    line = f"{mark} {entry['vsid']:06X} {index} {fields(entry)}"
    return line + (f" -> {fields(one['after'])}" if one["change"] == "changed" else "")


def diff(wanted, _):
    lines = [f"  {word['name']:6} {word['before']:08X} -> {word['after']:08X}, bits "
             f"{word['before'] ^ word['after']:08X}" for word in wanted["registers"]]
    lines += [f"  {len(wanted['registers'])} words changed", "  VSID   page frame WIMG PP RC group.entry"]
    lines += [change(one) for one in wanted["pages"]]
    kinds = [one["change"] for one in wanted["pages"]]
    return lines + [f"  {kinds.count('gone')} gone, {kinds.count('added')} added, {kinds.count('changed')} changed, "]
