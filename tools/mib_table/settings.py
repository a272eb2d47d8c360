"""What is made of the table of objects for the settings, for tools/objects.py: in dms_sign_access the settings and what
a SET assigns, in dms_sign what they read and their ranges, with what is proved of each, and in dms_sign_state the type
of those that are numbers and what is said of each; in the code, and in the definitions."""

from __future__ import annotations

import re
from collections.abc import Callable, Iterable

from mib_table.code import commented, enum, first_sentence, impl
from mib_table.table import BadTable, Object

ASSIGNED, ASSIGNED_DEFINITIONS = (
    f"crates/dms_sign_access/{name}" for name in ("src/settings.rt", "specs/Settings.antt")
)
TYPED, RANGES = (f"crates/dms_sign/{name}" for name in ("src/sign/typed.rt", "specs/InRange.antt"))
READ, READ_DEFINITIONS = (f"crates/dms_sign/{name}" for name in ("src/sign/values.rt", "specs/Values.antt"))
RANGES_KEPT, WRITES_FIT = (f"crates/dms_sign/proofs/{name}.antt" for name in ("InRangeSets", "StepDefaults"))
NUMBER_SETTINGS, NUMBER_DEFINITIONS = (
    f"crates/dms_sign_state/{name}" for name in ("src/number_settings.rt", "specs/NumberSettings.antt")
)
_BOUNDS = (0, 65535)
_MOST_DEFAULT = 255
_BETWEEN_WORDS = re.compile(r"(?<=[a-z])(?=[A-Z])")

# What the code calls the defaults (Defaults of dms_face).
_DEFAULTS = {
    "DefaultBackgroundColor": "background",
    "DefaultForegroundColor": "foreground",
    "DefaultFlashOn": "flash_on",
    "DefaultFlashOff": "flash_off",
    "DefaultFont": "font",
    "DefaultJustificationLine": "line",
    "DefaultJustificationPage": "page",
    "DefaultPageOnTime": "on",
    "DefaultPageOffTime": "off",
}


def _numbers(rows: list[Object]) -> list[Object]:
    """The objects that a SET assigns a number, but for the defaults, which have a line together."""
    of = [row for row in rows if row.access == "Write" and row.syntax.kind == "Range" and row.node != "MultiCfg"]
    numbers = [row for row in of if not row.is_column]
    for row in numbers:
        if row.syntax.bounds != _BOUNDS:
            raise BadTable(f"{row.name}: a setting that is a number is one from {_BOUNDS[0]} to {_BOUNDS[1]}")
    return numbers


def _defaults(rows: list[Object]) -> list[tuple[str, str]]:
    """The objects that a SET assigns one of the defaults, each with what the code calls it."""
    of = [row for row in rows if row.access == "Write" and row.node == "MultiCfg"]
    for row in of:
        if row.variant not in _DEFAULTS or row.syntax.kind != "Range" or row.syntax.numbers[-1] > _MOST_DEFAULT:
            raise BadTable(f"{row.name}: no default of dms_face, which are octets")
    return [(row.variant, _DEFAULTS[row.variant]) for row in of]


def _words(row: Object, between: str) -> str:
    return between.join(word.lower() for word in _BETWEEN_WORDS.split(row.variant))


def _method(head: str, said: str, clauses: Iterable[str], arms: Iterable[str]) -> str:
    ensures = "\n".join(f"        ensures {clause}" for clause in clauses)
    lines = "\n".join(f"            {arm}," for arm in arms)
    return f"""\
    /// {said}
    pub fn {head}
{ensures}
    {{
        match self {{
{lines}
        }}
    }}"""


def _arms(rows: list[Object], value: Callable[[Object], str]) -> list[str]:
    return [f"NumberSetting::{row.variant} => {value(row)}" for row in rows]


def _code(rows: list[Object]) -> str:
    """The type of these settings, all of them, their words, and their numbers among the settings."""
    of = _numbers(rows)
    every = "\n".join(f"    NumberSetting::{row.variant}," for row in of)
    word = _method(
        "word(self) -> &'static str",
        "What its line begins with.",
        ["word { result.now ≡ number_word self }", "short { length result.now ≤ 60 }"],
        _arms(of, lambda row: f'"{_words(row, "-")}"'),
    )
    value = _method(
        "of(self, settings: &SignSettings) -> u16",
        "Its number among the settings.",
        ["{ result ≡ number_of settings.now self }"],
        _arms(of, lambda row: f"settings.{_words(row, '_')}"),
    )
    put = _method(
        "put(self, settings: &mut SignSettings, number: u16)",
        "Puts its number among the settings.",
        ["{ settings.new ≡ with_number self number settings.old }"],
        _arms(of, lambda row: f"settings.{_words(row, '_')} = number"),
    )
    return f"""\
{enum("NumberSetting", "A setting that is a number of two octets, beside the defaults.", of)}

/// All of them, in the order of their lines.
pub(crate) const NUMBER_SETTINGS: [NumberSetting; {len(of)}] = [
{every}
];

{impl("NumberSetting", [word, value, put])}"""


def _definitions(rows: list[Object]) -> str:
    """The same in the words of clauses."""
    of = _numbers(rows)
    every = "".join(f"numbers.{row.variant} ∷ " for row in of)
    words = "\n".join(f'number_word numbers.{row.variant} = codes "{_words(row, "-")}"' for row in of)
    values = "\n".join(f"number_of settings numbers.{row.variant} = settings.{_words(row, '_')}" for row in of)
    puts = "\n".join(
        f"with_number numbers.{row.variant} number settings = record settings {{ {_words(row, '_')} = number }}"
        for row in of
    )
    return f"""\
-- all of them, in the order of their lines
abbrev pub all_numbers : List NumberSetting
all_numbers = {every}[]

-- what its line begins with
abbrev pub number_word : NumberSetting → List ℕ
{words}

-- its number among the settings
abbrev pub number_of : SignSettings → NumberSetting → ℕ
{values}

-- the settings with this number of it
abbrev pub with_number : NumberSetting → ℕ → SignSettings → SignSettings
{puts}"""


def _assigned(rows: list[Object]) -> str:
    """The settings, those of a sign as it is made, and what a SET assigns one that is a number."""
    of = _numbers(rows)
    fields = "\n".join(
        f"{commented(f'{row.name}: {first_sentence(row.said)}', 4)}\n    pub {_words(row, '_')}: u16," for row in of
    )
    first = "\n".join(f"            {_words(row, '_')}: 0," for row in of)
    arms = [f"Scalar::{row.variant} => settings.{_words(row, '_')} = number," for row in of]
    arms += [f"Scalar::{name} => settings.defaults.{field} = number as u8," for name, field in _defaults(rows)]
    assigns = "\n".join(f"        {arm}" for arm in arms)
    return f"""\
/// The values of the objects that can be set, but for those of the message table.
#[derive(Clone, Copy, Debug, PartialEq, Eq)]
pub struct SignSettings {{
    pub fallbacks: Fallbacks,
{fields}
    pub defaults: Defaults,
}}

impl SignSettings {{
    /// The settings as a sign is made: each code is that of blank message 1, and the numbers are 0.
    pub fn new(defaults: Defaults) -> SignSettings
        ensures first {{ result ≡ first_settings defaults }}
        ensures octets {{ AreDefaultsInRange defaults }}
    {{
        are_octets(&defaults);
        SignSettings {{
            fallbacks: blank_codes(),
{first}
            defaults,
        }}
    }}
}}

#[tactic(auto, unfolding(crate::specs::Settings::set_by))]
fn assign_number(settings: &mut SignSettings, object: Scalar, number: u16)
    requires {{ IsChange (changes.Number object number) }}
    ensures {{ settings.new ≡ set_by settings.old (SetNumber object number ∷ []) }}
{{
    match object {{
{assigns}
        _ => {{}}
    }}
}}"""


def _assigned_definitions(rows: list[Object]) -> str:
    """The same in the words of clauses."""
    of = _numbers(rows)
    first = "\n".join(f"  {_words(row, '_')} = 0;" for row in of)
    defaults = "\n".join(
        f"  {field} = given (number_for scalars.{name}) writes d.{field};" for name, field in _defaults(rows)
    )
    numbers = "\n".join(
        f"  {_words(row, '_')} = given (number_for scalars.{row.variant}) writes s.{_words(row, '_')};" for row in of
    )
    return f"""\
-- the settings as a sign is made: the numbers are 0
abbrev pub first_settings : Defaults → SignSettings
first_settings defaults = record {{
  fallbacks = first_fallbacks;
{first}
  defaults = defaults;
}}

-- the defaults after these writes (NTCIP 1203, multiCfg)
abbrev pub defaults_by : Defaults → List Write → Defaults
defaults_by d writes = record {{
{defaults}
}}

-- the settings after these writes
unfoldable pub set_by : SignSettings → List Write → SignSettings
set_by s writes = record {{
  fallbacks = codes_by s.fallbacks writes;
{numbers}
  defaults = defaults_by s.defaults writes;
}}"""


def _typed(rows: list[Object]) -> str:
    """What the types of the settings say of their ranges."""
    numbers = "\n".join(f"    is_of_two_octets(settings.{_words(row, '_')});" for row in _numbers(rows))
    return f"""\
/// Of what was set.
pub(super) fn settings_are_typed(settings: &SignSettings)
    ensures {{ AreSettingsInRange settings.now }}
{{
    fallbacks_are_typed(&settings.fallbacks);
{numbers}
    defaults_are_typed(settings.defaults);
}}"""


def _ranges(rows: list[Object]) -> str:
    """The same in the words of clauses."""
    names = [_words(row, "_") for row in _numbers(rows)]
    numbers = "\n".join(f"  pub {name} : settings.{name} ≤ {_BOUNDS[1]}" for name in names)
    return f"""\
-- the codes and the defaults are octets, the others numbers of 16 bits
pub record AreSettingsInRange (settings : SignSettings) : Type 0 where
  pub fallbacks : AreFallbacksInRange settings.fallbacks
{numbers}
  pub defaults : AreDefaultsInRange settings.defaults"""


def _read(rows: list[Object]) -> str:
    """What the settings that are numbers read."""
    return "\n".join(
        f"Scalar::{row.variant} => number_value(self.settings.{_words(row, '_')})," for row in _numbers(rows)
    )


def _read_definitions(rows: list[Object]) -> str:
    """The same in the words of clauses."""
    return "\n".join(
        f"scalar_value s scalars.{row.variant} = number_value s.settings.{_words(row, '_')}" for row in _numbers(rows)
    )


def _ranges_kept(rows: list[Object]) -> str:
    """The proof that a SET keeps the settings in their ranges."""
    names = [(row.variant, _words(row, "_")) for row in _numbers(rows)]
    numbers = "\n".join(f"  {name} = given_number scalars.{of} writes s.{name} all is.{name};" for of, name in names)
    return f"""\
set_by_in_range : (s : SignSettings) (writes : List Write) → AllByRecursion IsWriteInRange writes
    → AreSettingsInRange s → AreSettingsInRange (set_by s writes)
unfolding set_by
set_by_in_range s writes all is = record {{
  fallbacks = codes_by_in_range s.fallbacks writes all is.fallbacks;
{numbers}
  defaults = defaults_by_in_range s.defaults writes all is.defaults;
}}"""


def _writes_fit(rows: list[Object]) -> str:
    """The proof that what is written to a setting that is a number fits."""
    numbers = f"(number_in {_BOUNDS[0]} {_BOUNDS[1]} value)"
    return "\n".join(
        f"object_writes face scalars.{row.variant} value = any_number face scalars.{row.variant} {numbers} (λ n. refl)"
        for row in _numbers(rows)
    )


SETTINGS: tuple[tuple[str, str, Callable[[list[Object]], str]], ...] = (
    (ASSIGNED, "//", _assigned),
    (ASSIGNED_DEFINITIONS, "--", _assigned_definitions),
    (TYPED, "//", _typed),
    (RANGES, "--", _ranges),
    (READ, "//", _read),
    (READ_DEFINITIONS, "--", _read_definitions),
    (RANGES_KEPT, "--", _ranges_kept),
    (WRITES_FIT, "--", _writes_fit),
    (NUMBER_SETTINGS, "//", _code),
    (NUMBER_DEFINITIONS, "--", _definitions),
)
