"""What is made of the table of objects, and which tables are refused."""

import pathlib
import shutil

import pytest
from mib_table.code import CODE, COLUMN, OBJECTS, OCTETS, SCALAR
from mib_table.pages import mib_objects
from mib_table.settings import (
    ASSIGNED,
    ASSIGNED_DEFINITIONS,
    NUMBER_DEFINITIONS,
    NUMBER_SETTINGS,
    RANGES,
    RANGES_KEPT,
    READ,
    READ_DEFINITIONS,
    SETTINGS,
    TYPED,
    WRITES_FIT,
)
from mib_table.slots import SLOTS, shared
from mib_table.table import TABLE, BadTable, Object, read

TOP = pathlib.Path(__file__).resolve().parents[3]
ROW = 'scalar_row SignWidthPixels = row (codes "vmsSignWidthPixels") VmsCfg 4 Read (Range 1 256)\n'
TRIAL = '-- A number.\nscalar_row Trial = row (codes "vmsTrial") VmsCfg 7 Write (Range 3 9)\n'
PLACE = "every_object =\n    One SignHeightPixels ∷ One SignWidthPixels"


def objects_of(top: pathlib.Path, *changes: tuple[str, str]) -> list[Object]:
    """The objects of the repository's table once these texts stand in place of those."""
    for crate in ("dms_mib", "dms_codes"):
        shutil.copytree(TOP / f"crates/{crate}/specs", top / f"crates/{crate}/specs")
    text = (top / TABLE).read_text(encoding="utf-8")
    for old, new in changes:
        assert text.count(old) == 1
        text = text.replace(old, new)
    (top / TABLE).write_text(text, encoding="utf-8")
    return read(top)


def test_an_object_of_the_table_is_in_each_file_that_is_made(tmp_path: pathlib.Path) -> None:
    objects = objects_of(tmp_path, (ROW, ROW + TRIAL), (PLACE, f"{PLACE} ∷ One Trial"))
    made = {name: make(objects) for name, make in CODE}
    assert "instances: Instances::One(Scalar::Trial)," in made[OBJECTS]
    assert "    /// vmsTrial: A number\n    Trial," in made[SCALAR]
    for arm in ("=> (2, 7),", "=> Access::Write,", "=> Syntax::Range(3, 9),"):
        assert f"Scalar::Trial {arm}" in made[SCALAR]
    assert "7 => Some(Scalar::Trial)," in made[OCTETS]
    assert "2 => 7," in made[OCTETS]
    assert "Trial" not in made[COLUMN]
    assert "vmsTrial OBJECT-TYPE\n    SYNTAX  INTEGER (3..9)\n    ACCESS  read-write\n" in mib_objects(objects)
    assert '"A number."\n    ::= { vmsCfg 7 }' in mib_objects(objects)


def test_a_number_that_can_be_set_has_its_line_in_a_state(tmp_path: pathlib.Path) -> None:
    row = TRIAL.replace("Trial", "TrialTime").replace("Range 3 9", "Range 0 65535")
    objects = objects_of(tmp_path, (ROW, ROW + row), (PLACE, f"{PLACE} ∷ One TrialTime"))
    made = {name: make(objects) for name, _, make in SETTINGS}
    assert "NUMBER_SETTINGS: [NumberSetting; 3] = [\n    NumberSetting::TrialTime," in made[NUMBER_SETTINGS]
    for arm in ('=> "trial-time",', "=> settings.trial_time,", "=> settings.trial_time = number,"):
        assert f"NumberSetting::TrialTime {arm}" in made[NUMBER_SETTINGS]
    assert "all_numbers = numbers.TrialTime ∷ " in made[NUMBER_DEFINITIONS]
    assert 'number_word numbers.TrialTime = codes "trial-time"\n' in made[NUMBER_DEFINITIONS]


def test_a_number_that_can_be_set_is_assigned_and_has_its_range(tmp_path: pathlib.Path) -> None:
    row = TRIAL.replace("Trial", "TrialTime").replace("Range 3 9", "Range 0 65535")
    objects = objects_of(tmp_path, (ROW, ROW + row), (PLACE, f"{PLACE} ∷ One TrialTime"))
    made = {name: make(objects) for name, _, make in SETTINGS}
    assert "    /// vmsTrialTime: A number\n    pub trial_time: u16,\n" in made[ASSIGNED]
    assert "            trial_time: 0,\n" in made[ASSIGNED]
    assert "        Scalar::TrialTime => settings.trial_time = number,\n" in made[ASSIGNED]
    assert "  trial_time = 0;\n" in made[ASSIGNED_DEFINITIONS]
    assert "  trial_time = given (number_for scalars.TrialTime) writes s.trial_time;\n" in made[ASSIGNED_DEFINITIONS]
    assert "    is_of_two_octets(settings.trial_time);\n" in made[TYPED]
    assert "  pub trial_time : settings.trial_time ≤ 65535\n" in made[RANGES]


def test_a_number_that_can_be_set_is_read_and_keeps_its_range(tmp_path: pathlib.Path) -> None:
    row = TRIAL.replace("Trial", "TrialTime").replace("Range 3 9", "Range 0 65535")
    objects = objects_of(tmp_path, (ROW, ROW + row), (PLACE, f"{PLACE} ∷ One TrialTime"))
    made = {name: make(objects) for name, _, make in SETTINGS}
    assert "Scalar::TrialTime => number_value(self.settings.trial_time)," in made[READ]
    assert "scalar_value s scalars.TrialTime = number_value s.settings.trial_time\n" in made[READ_DEFINITIONS]
    kept = "  trial_time = given_number scalars.TrialTime writes s.trial_time all is.trial_time;\n"
    assert kept in made[RANGES_KEPT]
    fits = "object_writes face scalars.TrialTime value = any_number face scalars.TrialTime (number_in 0 65535 value)"
    assert fits in made[WRITES_FIT]


def test_a_default_that_is_no_default_of_the_face_is_refused(tmp_path: pathlib.Path) -> None:
    with_another = [("MultiCfg 3 Write (Range 0 255)", "MultiCfg 3 Write (Range 0 256)")]
    objects = objects_of(tmp_path, *with_another)
    made = {name: make for name, _, make in SETTINGS}
    for name in (ASSIGNED, ASSIGNED_DEFINITIONS):
        with pytest.raises(BadTable):
            made[name](objects)


def test_a_number_that_can_be_set_and_has_a_range_of_its_own_is_refused(tmp_path: pathlib.Path) -> None:
    objects = objects_of(tmp_path, (ROW, ROW + TRIAL), (PLACE, f"{PLACE} ∷ One Trial"))
    for _, _, make in SETTINGS:
        with pytest.raises(BadTable):
            make(objects)


@pytest.mark.parametrize(
    "changes",
    [
        [(ROW, ROW + TRIAL)],  # it has no place in the list
        [(ROW, ROW + TRIAL.partition("\n")[2]), (PLACE, f"{PLACE} ∷ One Trial")],  # nothing is said above it
        [("(Range 1 256)", "(Range 1)")],
        [("(Range 1 256)", "(Range 1 widest)")],
        [("VmsCfg 4 Read", "VmsCfg 4 Seen")],
    ],
)
def test_a_table_that_lacks_something_is_refused(tmp_path: pathlib.Path, changes: list[tuple[str, str]]) -> None:
    with pytest.raises(BadTable):
        objects_of(tmp_path, *changes)


def test_a_name_that_can_be_set_and_has_the_slot_of_another_is_found(tmp_path: pathlib.Path) -> None:
    listed = (PLACE, f"{PLACE} ∷ One Trial")
    assert shared(TOP, objects_of(tmp_path / "one", (ROW, ROW + TRIAL), listed)) == []
    other = TRIAL.replace("VmsCfg 7", "SignControl 21")
    assert shared(TOP, objects_of(tmp_path / "other", (ROW, ROW + other), listed)) == [
        f"{SLOTS}: vmsTrial 0 and dmsMessageStatus 3.46 share a slot: other factors are wanted"
    ]
    only_read = other.replace("Write", "Read")
    assert shared(TOP, objects_of(tmp_path / "read", (ROW, ROW + only_read), listed)) == []
