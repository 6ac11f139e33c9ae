"""sec1_inspect over keys of every form: each line, standard error and the status."""

import pytest
import reports

pytestmark = [pytest.mark.built, pytest.mark.core]


def test_reports(program, tell, tmp_path):
    for name, is_file, given, wanted in reports.runs():
        found = reports.run(program("sec1_inspect"), is_file, given, tmp_path / "key")
        tell(f"{name}: {found[0]}, {found[1][:200]}, {found[2][:100]}", found == wanted)
