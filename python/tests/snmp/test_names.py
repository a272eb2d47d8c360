"""Names of objects and words of values, beside the MIB's and the model's."""

from model.objects import DMS, Objects
from model.state import State
from model.text import bench
from wisangub.snmp import names
from wisangub.snmp.mib import FILE, Mib


def test_names_are_those_of_the_mib() -> None:
    mib, of_sign = Mib.read(), Mib(FILE.read_text(encoding="utf-8")).objects
    for word, name in names.OBJECTS.items():
        assert mib.objects[name] == word
    above = {name[:size] for name in of_sign for size in range(len(name))}
    assert {word for name, word in of_sign.items() if name not in above} == set(names.OBJECTS)
    assert mib.name(names.scalar("dmsActivateMessage")) == "dmsActivateMessage.0"
    assert mib.name(names.cell("dmsMessageStatus", names.Memory.CHANGEABLE, 7)) == "dmsMessageStatus.3.7"


def test_all_scalars_and_columns_of_the_model_have_a_name() -> None:
    assert names.DMS == DMS
    scalars = {name[len(DMS) : -1] for name in Objects(State(bench())).names if len(name) == len(DMS) + 3}
    assert scalars == set(names.SCALARS) and sorted(names.COLUMNS) == list(range(1, 10))


def test_statuses_of_rows_are_those_of_the_mib() -> None:
    words = Mib.read().words["dmsMessageStatus"]
    assert [int(status) for status in names.RowStatus] == sorted(words)
    assert all(words[status].lower() == status.name.replace("_", "").lower() for status in names.RowStatus)
