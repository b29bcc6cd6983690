"""The impl by which calls know the full name of a message, where it is asked for: so an Any is packed and unpacked by the type alone."""

TRAIT = "NamedMessage"


def names(world):
    """What the file of a message imports for it."""
    return {TRAIT} if world.any else set()


def modules(world, module_of):
    """The modules of names, with that of the trait: the crate that has it can't name itself."""
    return {**module_of, TRAIT: "crate::named_message"} if world.crate == "buffa_types" else module_of


def impl(message):
    """The impl, where it is asked for."""
    if not message.world.any:
        return []
    made = ["", f"impl {TRAIT} for {message.rust} {{", "    ghost use Rattle.std.specs.Prelude.{codes};", ""]
    made += [f'    ghost name = {{ codes "{message.name.full}" }};', "", "    fn full_name() -> &'static str {"]
    return made + ["        Self::FULL_NAME", "    }", "}"]
