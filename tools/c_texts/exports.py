"""The exports of a message, in Rattle: each calls what is the same for all messages, and states its contract of this one."""
from text import WIDTH, use_line

LONGEST = 120
DEPTH = "RECURSION_LIMIT"
WITHIN = "record { longest = longest; depth = depth; unknown = unknown; units = units }"
LIMITS = ["longest: usize", "depth: u32", "unknown: usize", "units: usize"]
MADE_LIMITS = ["let limits = Limits {", "    longest,", "    depth,", "    unknown,", "    units,", "};"]


def filled(indent, pieces, tail, more="    "):
    """Pieces one after the other, as many as fit on each line; each line but the first is indented more."""
    made = [indent + pieces[0]]
    for piece in pieces[1:]:
        if len(made[-1]) + 1 + len(piece) + len(tail) <= LONGEST:
            made[-1] += f" {piece}"
        else:
            made.append(f"{indent}{more}{piece}")
    return made[:-1] + [made[-1] + tail]


def spec(gate, what):
    return f"⟦<{gate.rust} as MessageSpec>⟧.{what}"


def blank(gate):
    return f"⟦<{gate.rust} as Blank>⟧.blank_is"


def meant(gate, depth):
    return f"({spec(gate, 'merged')} {depth} {blank(gate)} bytes.now)"


def cost(gate, depth):
    return f"({spec(gate, 'cost')} {depth} bytes.now)"


def clause(word, pieces, label=""):
    return filled("    ", [f"ensures {label}{{ {word}"] + pieces, " }")


def signature(name, more):
    """The head of an export, on one line, or with each parameter on its own."""
    parts = ["alloc: Global", "bytes: &[u8]"] + more
    line = f'pub extern "C" fn {name}({", ".join(parts)}) -> u32'
    head = ["#[unsafe(no_mangle)]"]
    if len(line) <= WIDTH:
        return head + [line]
    return head + [f'pub extern "C" fn {name}('] + [f"    {it}," for it in parts] + [") -> u32"]


def export(docs, name, more, clauses, body):
    return ["", *[f"/// {it}".rstrip() for it in docs], *signature(name, more), *clauses, "{", *[f"    {it}" for it in body], "}"]


def checks(gate, limits, depth):
    """What the two calls promise that check bytes."""
    asked = [f"⟦<{gate.rust} as Blank>⟧.meaning", f"⟦<{gate.rust} as Required>⟧.initialized"] if gate.is_asked else []
    made = clause("ChecksWhole" if gate.is_asked else "Checks", [meant(gate, depth), cost(gate, depth)] + asked + [limits, "bytes.now result"], "answer ")
    named = [spec(gate, "merged"), spec(gate, "cost"), spec(gate, "Refused"), blank(gate), limits, "bytes.now result"]
    return made + clause("NumbersFault", named, "which ")


def check_body(gate, limits):
    return [f"{'check_whole' if gate.is_asked else 'check'}::<{gate.rust}>(alloc, bytes, {limits})"]


def check(gate):
    whole = ", with all that is required" if gate.is_asked else ""
    made = export([f"Whether the bytes are accepted as `{gate.rust}`{whole}."], f"{gate.prefix}_check", [], checks(gate, "USUAL", DEPTH), check_body(gate, "USUAL"))
    body = MADE_LIMITS + check_body(gate, "limits")
    docs = [f"Whether the bytes are accepted as `{gate.rust}`{whole}, under limits of the caller's."]
    return made + export(docs, f"{gate.prefix}_check_within", LIMITS, checks(gate, WITHIN, "depth"), body)


def place(gate):
    """The call that tells where bytes are refused."""
    more = LIMITS + ["path: &mut [PathStep]", "steps: &mut usize", "offset: &mut usize"]
    told = [spec(gate, "merged"), spec(gate, "cost"), spec(gate, "Refused"), blank(gate), WITHIN, "bytes.now", "result", "path.old", "path.new", "steps.new", "offset.new"]
    docs = [f"Where the bytes are refused as `{gate.rust}`, under limits of the caller's."]
    body = MADE_LIMITS + [f"place_of::<{gate.rust}>(alloc, bytes, limits, path, steps, offset)"]
    return export(docs, f"{gate.prefix}_place", more, clause("TellsPlace", told), body)


def encodings(gate):
    name, pieces = gate.prefix, [meant(gate, DEPTH), cost(gate, DEPTH), spec(gate, "encoding"), "USUAL", "bytes.now"]
    made = export(
        [f"The encoding of the `{gate.rust}` that the bytes mean, at the front of `out`."],
        f"{name}_canonical",
        ["out: &mut [u8]", "written: &mut usize"],
        clause("Rewrites", pieces + ["result", "out.old", "out.new", "written.new"]),
        [f"canonical::<{gate.rust}>(alloc, bytes, USUAL, out, written)"],
    )
    if gate.is_discarding:
        left = [f"⟦<{gate.rust} as Blank>⟧.meaning", f"⟦<{gate.rust} as DiscardUnknown>⟧.Discarded"]
        made += export(
            [f"The encoding of what is left of the `{gate.rust}` that the bytes mean, without the fields that aren't declared."],
            f"{name}_canonical_declared",
            ["out: &mut [u8]", "written: &mut usize"],
            clause("RewritesDeclared", pieces[:2] + left + pieces[2:] + ["result", "out.old", "out.new", "written.new"]),
            [f"canonical_declared::<{gate.rust}>(alloc, bytes, USUAL, out, written)"],
        )
    made += export(
        [f"How many bytes `{name}_canonical` writes."],
        f"{name}_room",
        ["room: &mut usize"],
        clause("Measures", pieces + ["result", "room.new"]),
        [f"room_of::<{gate.rust}>(alloc, bytes, USUAL, room)"],
    )
    return made + export(
        [f"Whether the bytes are the encoding of the `{gate.rust}` that they mean, each of them."],
        f"{name}_is_canonical",
        [],
        clause("ChecksCanonical", pieces + ["result"]),
        [f"is_canonical::<{gate.rust}>(alloc, bytes, USUAL)"],
    )


def tells(gate, told):
    """The call that tells a member."""
    word = ("CopiesBytes" if told.is_text else "TellsNumber") + ("If" if told.is_optional else "")
    member = f"{told.path}{'.1' if told.is_enum and not told.is_optional else ''}"
    if told.is_enum and told.is_optional:
        member = f"option_map (λ v. v.1) {told.path}"
    checks = [meant(gate, DEPTH), cost(gate, DEPTH), "USUAL", "bytes.now result"]
    clauses = clause("ChecksRoom" if told.is_text else "Checks", checks, "answer ")
    clauses += clause(word, [f"(option_map (λ m. {member})", meant(gate, DEPTH) + ")", " ".join(["result", *left(told)])], "answered ")
    docs = [f"The member `{told.name}` of the `{gate.rust}` that the bytes mean{', if it is there' if told.is_optional else ''}."]
    return export(docs, f"{gate.prefix}_{told.name}", parameters(told), clauses, tell_body(gate, told))


def left(told):
    """What the clause says of the caller's memory."""
    there = ["there.new"] * told.is_optional
    return there + (["out.old", "out.new", "written.new"] if told.is_text else ["value.old", "value.new"])


def parameters(told):
    there = ["there: &mut bool"] * told.is_optional
    return there + (["out: &mut [u8]", "written: &mut usize"] if told.is_text else [f"value: &mut {told.number}"])


def taken(told, of):
    """The number or the bytes that are told, of what the member holds."""
    if told.is_text:
        return f"{of}.as_bytes()" if told.is_utf8 else f"{of}.as_slice()" if "Vec" in told.member.rust else of
    return f"{of}.to_i32()" if told.is_enum else f"{of}.bits" if told.real else of


def tell_body(gate, told):
    member = f"message.{told.member.name}"
    made = ["*there = false;"] * told.is_optional + ["*written = 0;"] * told.is_text
    made += [f"match read::<{gate.rust}>(alloc, bytes, USUAL) {{"]
    if not told.is_optional and told.is_text:
        made += [f"    Ok(message) => put({taken(told, member)}, out, written),"]
    elif not told.is_optional:
        made += ["    Ok(message) => {", f"        *value = {taken(told, member)};", "        ACCEPTED", "    }"]
    elif told.is_text:
        made += [f"    Ok(message) => match &{member} {{", f"        Some(held) => put_some({taken(told, 'held')}, there, out, written),"]
        made += ["        None => ACCEPTED,", "    },"]
    else:
        made += [f"    Ok(message) => {{", f"        if let Some(held) = {'&' if told.is_enum else ''}{member} {{", "            *there = true;"]
        made += [f"            *value = {taken(told, 'held')};", "        }", "        ACCEPTED", "    }"]
    return made + ["    Err(answer) => answer,", "}"]


def text(gate):
    """The file of a message's exports."""
    made = check(gate) + (place(gate) if gate.is_located else []) + encodings(gate)
    for told in gate.told:
        made += tells(gate, told)
    body = "\n".join(made)
    head = [f"//! `{gate.rust}` for programs in other languages, made of {gate.file} by c_library.", ""]
    head += ["ghost use Rattle.std.specs.Prelude.{option_map};"] * ("option_map" in body)
    answers = ["Checks"] * (" Checks " in body or " Checks\n" in body) + ["ChecksWhole"] * gate.is_asked
    head += [f"ghost use Rattle.buffa_c.specs.Answers.{{{', '.join(answers)}, NumbersFault}};"]
    head += [f"ghost use Rattle.buffa_c.specs.Encodings.{{ChecksCanonical, Measures, Rewrites{', RewritesDeclared' * gate.is_discarding}}};"]
    head += ["ghost use Rattle.buffa_c.specs.Places.{TellsPlace};"] * gate.is_located
    used = [it for it in ("ChecksRoom", "CopiesBytes", "CopiesBytesIf", "TellsNumber", "TellsNumberIf") if f"{{ {it} " in body or f"{{ {it}\n" in body]
    head += [f"ghost use Rattle.buffa_c.specs.Members.{{{', '.join(used)}}};"] * bool(used)
    calls = {"Limits", "USUAL", "canonical", "is_canonical", "room_of"} | {it for it in ("check", "check_whole", "put", "put_some", "read") if f"{it}::<" in body or f" {it}(" in body}
    calls |= {"canonical_declared"} if gate.is_discarding else set()
    calls |= {it for it in ("ACCEPTED",) if it in body} | ({"PathStep", "place_of"} if gate.is_located else set())
    modules = {"buffa_c": calls, "buffa_fields": {"Blank", "MessageSpec", "RECURSION_LIMIT"} | ({"Required"} if gate.is_asked else set()), gate.path: {gate.rust}, "std::alloc": {"Global"}}
    if gate.is_discarding:
        modules["buffa_discard"] = {"DiscardUnknown"}
    uses = []
    for module in sorted(modules, key=lambda it: (not it.startswith("crate::"), it)):
        uses += use_line(module, sorted(modules[module]))
    return "\n".join(head + [""] + uses + made) + "\n"


def root(library, is_own):
    """The crate's root file."""
    modules = sorted(["messages"] * is_own + ["exports"])
    made = [f"//! Messages of {', '.join(library.files)} for programs in other languages, made by c_library.", "#![tactic(auto)]", ""]
    return "\n".join(made + [f"pub mod {it};" for it in modules]) + "\n"


def exports(library):
    """The file that names the files of exports."""
    made = [f"//! The exports of each message, made of {', '.join(library.files)} by c_library.", ""]
    return "\n".join(made + [f"pub mod {it};" for it in sorted(gate.snake for gate in library.gates)]) + "\n"
