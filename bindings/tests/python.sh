# The wheel: installed by pip in new environments, without an index.
# shellcheck shell=bash disable=SC2154

installed() {
  rm -rf venv && "$python" -m venv venv && venv/bin/python -m pip install -q --no-index --find-links "$dist" dnsm &&
    shows venv/bin/python "$tests/examples/show.py" && writes venv/bin/python "$tests/examples/write.py" &&
    responds venv/bin/python "$tests/examples/respond.py" &&
    (cd "$tests/tests" && "$room/python/venv/bin/python" -W error -m unittest -q test_dnsm test_whole test_servers)
}

# What pip says of the wheel: each file is in RECORD, and the version is that of dnsm.h.
described() {
  venv/bin/python -m pip check && venv/bin/python -m pip show -f dnsm | tee said.txt && grep -q libdnsm.so.2 said.txt &&
    grep -q py.typed said.txt && grep -qx "Version: $version" said.txt &&
    venv/bin/python -c "import dnsm; assert dnsm.__version__ == '$version'"
}

# The program of the page.
quoted_program() {
  quoted python >program.py && names venv/bin/python program.py
}

# The programs of the package's own page. The second takes the addresses from elsewhere, here more than it has room for.
page() {
  venv/bin/python -W error -c '
import importlib.metadata, re
names = {"addresses": [bytes(15) + bytes([last]) for last in range(40)]}
blocks = re.findall("```python\\n(.*?)```", importlib.metadata.metadata("dnsm").get_payload(), re.S)
for block in blocks:
    exec(block, names)
assert len(blocks) == 2 and names["octets"][2] & 2'
}

# The package by its sources, and a user's program by what the package says of its types.
typed() {
  mypy --strict --cache-dir mypy venv/lib/python*/site-packages/dnsm &&
    mypy --strict --cache-dir mypy --python-executable venv/bin/python "$tests/tests/typed.py" "$tests"/examples/respond.py
}

# What the packages for Python and Rust say of the header.
header() {
  python3 -m zipfile -e "$dist"/dnsm-*.whl wheel &&
    PYTHONPATH=wheel python3 "$tests/header.py" "$dist"/rust/dnsm-sys/{include/dnsm.h,src/lib.rs}
}

# Each file of the wheel has the grammar of Python 3.8.
grammar() {
  python3 - "$dist"/dnsm-*.whl <<'PROGRAM'
import ast, sys, zipfile

with zipfile.ZipFile(sys.argv[1]) as wheel:
    names = [it for it in wheel.namelist() if it.endswith(".py")]
    for name in names:
        ast.parse(wheel.read(name), name, feature_version=(3, 8))
assert len(names) > 1
PROGRAM
}

recorded() {
  python3 "$tests/record.py" "$dist"/dnsm-*.whl
}

# What doesn't depend on the version of Python.
checks() {
  check python::described described
  check python::quoted quoted_program
  check python::page page
  check python::typed typed mypy
}

check python::recorded recorded python3
check python::grammar grammar python3
check python::header header python3
first=yes
for python in ${PYTHONS:-python3}; do
  if has "$python" && ! "$python" -c ''; then
    echo "test packages::python::$python ... FAILED"
    continue
  fi
  if ! "$python" -c 'import ensurepip, venv' 2>/dev/null; then
    skip "python::installed_by_$python" "$python with venv"
    continue
  fi
  check "python::installed_by_$("$python" -c 'import platform; print(platform.python_version())')" installed
  [ "$first" = no ] || checks
  first=no
done
[ "$first" = no ] || for name in described quoted page typed; do skip "python::$name" 'python3 with venv'; done
