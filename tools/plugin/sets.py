"""The text of a MessageSet: a message by the calls of buffa_sets, which size, write and merge its unknown fields."""
from names import MODULE

# What the file imports, and the words of its clauses.
CALLS = set("EncodeError EncodeSink Message MessageSpec SizeCache WireType".split())
NAMES = CALLS | set("Blank DecodeContext DecodeError ExtensionSet Global Tag UnknownFields Unknowns set".split())
MODULE_OF = {**MODULE, **{it: "buffa_fields" for it in CALLS}, "set": "buffa_sets"}
# What is said of its one member.
KEPT = "The message of each Item under its type id, and every other field as it is, in order."
HEAD = """
ghost use Rattle.std.proofs.Common.{lit<, refl};
ghost use Rattle.std.specs.Prelude.{IfErr, IsOk, OnOk, [], codes, ◌≡◌, ◌≢◌};
ghost use Rattle.buffa_fields.specs.Terms.{BeginsField, FullOnlyIf, IsSized, IsTailOf, IsWritten, MergesBytes};
ghost use Rattle.buffa_fields.specs.Terms.{MergesField, PartlyMerged, UsesRoom, budget_left};
ghost use Rattle.buffa_sets.specs.Terms.{AreItems, IsSetRefused, StopsBehind, TakesSetField, set_back, set_charge};
ghost use Rattle.buffa_sets.specs.Terms.{set_cost, set_cost_is, set_encoding, set_encoding_records, set_levels};
ghost use Rattle.buffa_sets.specs.Terms.{set_merged, set_merged_is, set_records, set_stays, set_takes, set_valid};
"""
FORM = """impl Blank for NAME {
    type Meaning = Unknowns;

    ghost meaning = { λ m. m.unknown_fields.records };

    ghost blank_is = { [] };

BLANK
}

impl MessageSpec for NAME {
    const COST: usize = UNITS;

    ghost COST = { UNITS };

    ghost takes = { set_takes };

    ghost charge = { set_charge };

    ghost merged = { set_merged };

    ghost cost = { set_cost };

    ghost Refused = { IsSetRefused };

    ghost encoding = { set_encoding };

    ghost records = { set_records };

    ghost slots = { λ _. [] };

    ghost levels = { set_levels };

    ghost normal = { AreItems };

    ghost encoding_records = { set_encoding_records };

    ghost valid = { set_valid };

    ghost merged_encoding = { set_back };

    ghost positive = { lit< tt };

    ghost stays = { set_stays };

    ghost merged_is = { set_merged_is };

    ghost cost_is = { set_cost_is };
}

impl Message for NAME {
    fn compute_size(&self, _cache: &mut SizeCache) -> Result<u32, EncodeError>
        ensures sized { IsSized (set_encoding self.now.unknown_fields.records) [] _cache.old result _cache.new }
        ensures always { IsOk result }
    {
        Ok(set::size(&self.unknown_fields))
    }

    fn write_to<S: EncodeSink>(
        &self,
        _cache: &mut SizeCache,
        sink: &mut S,
    ) -> Result<(), EncodeError>
        ensures written { IsWritten (set_encoding self.now.unknown_fields.records) [] _cache.old (S.written sink.old)
            result _cache.new (S.written sink.new) }
        ensures room { UsesRoom result (S.room sink.old) (set_encoding self.now.unknown_fields.records)
            (S.room sink.new) }
    {
        set::write(&self.unknown_fields, sink)
    }

    /// Merges the field whose tag was read: an Item, or any other field. What is refused changes and spends nothing.
    fn merge_field(
        &mut self,
        alloc: Global,
        tag: Tag,
        buf: &mut &[u8],
        ctx: DecodeContext<'_>,
    ) -> Result<(), DecodeError>
        ensures merged { MergesField set_merged set_cost ctx.entry self.old.unknown_fields.records tag.number
            tag.wire_type buf.old.now result self.new.unknown_fields.records (budget_left ctx.exit) buf.new.now }
        ensures refused { IfErr result (λ e. IsSetRefused ctx.entry.depth self.old.unknown_fields.records tag.number
            tag.wire_type buf.old.now ctx.entry.budget.now e self.new.unknown_fields.records) }
        ensures full { FullOnlyIf result (tag.wire_type ≢ WireType.EndGroup) }
        ensures takes { TakesSetField ctx.entry.depth self.old.unknown_fields.records tag.number tag.wire_type
            buf.old.now ctx.entry.budget.now result self.new.unknown_fields.records (budget_left ctx.exit) buf.new.now }
    {
        set::merge_field(&mut self.unknown_fields, alloc, tag, buf, ctx)
    }

    /// Merges the fields that the bytes are, all of them. After a refusal the fields before the refused one are merged,
    /// and no others.
    fn merge(
        &mut self,
        alloc: Global,
        buf: &mut &[u8],
        ctx: DecodeContext<'_>,
    ) -> Result<(), DecodeError>
        ensures merged { MergesBytes set_merged set_cost ctx.entry.depth self.old.unknown_fields.records buf.old.now
            ctx.entry.budget.now result self.new.unknown_fields.records (budget_left ctx.exit) }
        ensures partly { IfErr result (λ e. PartlyMerged set_merged set_cost IsSetRefused ctx.entry.depth
            self.old.unknown_fields.records buf.old.now ctx.entry.budget.now e self.new.unknown_fields.records) }
        ensures full { FullOnlyIf result (BeginsField buf.old.now) }
        ensures read { OnOk result (buf.new.now ≡ []) }
        ensures tail { IsTailOf buf.new.now buf.old.now }
        ensures stops { IfErr result (λ e. StopsBehind ctx.entry.depth self.old.unknown_fields.records buf.old.now
            ctx.entry.budget.now e self.new.unknown_fields.records (budget_left ctx.exit)) }
    {
        set::merge(&mut self.unknown_fields, alloc, buf, ctx)
    }
}"""


def head():
    """What the file cites."""
    return HEAD.strip().split("\n")


def form(message, cost, blank):
    """All that makes a struct a MessageSet, but that it has extensions."""
    return FORM.replace("NAME", message.rust).replace("UNITS", str(cost)).replace("BLANK", "\n".join(blank)).split("\n")


def see(message):
    """Refuses a MessageSet that would pass over its Items, or that has the name of something its file imports."""
    way = f"give it another name by --buffa_opt=rename={message.name.full}:NAME"
    if not message.is_keeping:
        message.name.refuse("its Items are among the fields that aren't declared, which drop= leaves out", f"take drop={message.name.full} away")
    if message.rust in CALLS:
        message.name.refuse(f"no MessageSet can be called {message.rust}", way)
