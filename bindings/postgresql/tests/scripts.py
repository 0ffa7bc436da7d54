"""The scripts that a server runs as a superuser: what an owner of a database puts before them changes nothing, and each name of
PostgreSQL in them has its schema."""
import os
import re
import subprocess

from ends import code_of

EXTENSION = os.path.dirname(os.path.dirname(os.path.abspath(__file__)))

# Functions and operators that hide those of PostgreSQL from a script that names them without a schema: their types fit better. Each makes
# the caller a superuser.
BODY = "LANGUAGE plpgsql AS $$BEGIN ALTER ROLE mallory SUPERUSER; RETURN {result}; END$$"
ATTACKS = {
    "format": "CREATE FUNCTION {schema}.format(text, text, text) RETURNS text " + BODY.format(result="pg_catalog.format($1, $2, $3)"),
    "||": "CREATE FUNCTION {schema}.f(text, regprocedure) RETURNS text " + BODY.format(result="pg_catalog.concat($1, $2)")
          + "; CREATE OPERATOR {schema}.|| (LEFTARG = text, RIGHTARG = regprocedure, FUNCTION = {schema}.f)",
    "=": "CREATE FUNCTION {schema}.f(oid, regclass) RETURNS boolean " + BODY.format(result="$1 OPERATOR(pg_catalog.=) $2::oid")
         + "; CREATE OPERATOR {schema}.= (LEFTARG = oid, RIGHTARG = regclass, FUNCTION = {schema}.f)",
    "~~": "CREATE FUNCTION {schema}.f(name, name) RETURNS boolean " + BODY.format(result="$1 OPERATOR(pg_catalog.~~) $2::text")
          + "; CREATE OPERATOR {schema}.~~ (LEFTARG = name, RIGHTARG = name, FUNCTION = {schema}.f)",
}

# The statements of a script: they define objects, and evaluate no expression.
DEFINITIONS = re.compile(r"(CREATE|COMMENT ON|DROP|ALTER) (TYPE|FUNCTION|AGGREGATE|OPERATOR( CLASS| FAMILY)?|CAST)\b|ALTER EXTENSION\b")
# Words of the grammar that are also names of PostgreSQL's objects, each with the words that it stands between.
GRAMMAR = [r"CREATE CAST", r"COMMENT ON CAST", r"DROP CAST", r"\bDEFAULT\b", r"OPERATOR FAMILY", r"\bdouble precision\b",
           r"\bLANGUAGE C\b", r"\bUSING (hash|btree)\b", r"\bmode (?=pg_catalog\.text\b)", r"\bALIGNMENT = \w+",
           r"\b(integer|bigint|numeric|boolean)\b"]


def attacks(tests):
    """An owner of a database who is no superuser stays none after `CREATE EXTENSION`, and so does one who can write to the schema into
    which a superuser installs."""
    on = tests.main
    with on.session() as session, session.cursor() as cursor:
        cursor.execute("CREATE ROLE mallory LOGIN")

    def stays_none(name, made):
        with on.session() as session, session.cursor() as cursor:
            cursor.execute("SELECT rolsuper FROM pg_roles WHERE rolname = 'mallory'")
            tests.check(f"no superuser by {name}", cursor.fetchone() == (False,))
            cursor.execute("ALTER ROLE mallory NOSUPERUSER")
        with on.session("attacked") as session, session.cursor() as cursor:
            cursor.execute("SELECT count(*) FROM pg_extension WHERE extname = 'sketches_rattle'")
            tests.check(f"the extension is installed beside {name}", made is None and cursor.fetchone() == (1,), made)

    for name, statement in ATTACKS.items():
        on.run("createdb", "-O", "mallory", "attacked")
        with on.session("attacked", user="mallory") as session, session.cursor() as cursor:
            cursor.execute("CREATE SCHEMA e; " + statement.format(schema="e"))
            made = code_of(cursor, "CREATE EXTENSION sketches_rattle SCHEMA e")
        stays_none(name, made)
        on.run("dropdb", "attacked")
    on.run("createdb", "attacked")
    with on.session("attacked") as session, session.cursor() as cursor:
        cursor.execute("GRANT CREATE ON SCHEMA public TO mallory")
    with on.session("attacked", user="mallory") as session, session.cursor() as cursor:
        for name in ["format", "="]:
            cursor.execute(ATTACKS[name].format(schema="public"))
    with on.session("attacked") as session, session.cursor() as cursor:
        made = code_of(cursor, "CREATE EXTENSION sketches_rattle SCHEMA public")
    stays_none("functions in the schema public, where a superuser installs", made)
    on.run("dropdb", "attacked")
    with on.session() as session, session.cursor() as cursor:
        cursor.execute("DROP ROLE mallory")


def statements(script):
    """Returns the statements of a script, without comments and without what stands in quotes."""
    lines = [line for line in script.split("\n") if not line.startswith(("--", "\\"))]
    return [" ".join(it.split()) for it in re.sub(r"'(?:[^']|'')*'", "''", "\n".join(lines)).split(";") if it.strip()]


def bare_names(script, known):
    """Returns the statements that do more than define an object, and the names of PostgreSQL's objects that have no schema."""
    others, bare = [], set()
    for statement in statements(script):
        if not DEFINITIONS.match(statement) or "$" in statement or re.search(r"\bLANGUAGE (?!C\b)", statement):
            others.append(statement)
        rest = statement
        for words in GRAMMAR:
            rest = re.sub(words, " ", rest)
        bare |= {word for word in re.findall(r"(?<![\w.])[A-Za-z_]\w*(?![\w.])", rest) if word.lower() in known}
    return others, bare


def schemas(tests):
    """Each script defines objects, evaluates nothing, and names each object of PostgreSQL by its schema. There is one script until a
    version is published."""
    made = subprocess.run(["sh", f"{EXTENSION}/script.sh"], capture_output=True, check=True, text=True).stdout
    scripts = {"the script": made}
    for name in sorted(os.listdir(EXTENSION)):
        if name.endswith(".sql"):
            with open(f"{EXTENSION}/{name}", encoding="utf-8") as file:
                scripts[name] = file.read()
    with tests.main.session("template1") as session, session.cursor() as cursor:
        cursor.execute("SELECT proname FROM pg_proc UNION SELECT typname FROM pg_type UNION SELECT relname FROM pg_class "
                       "UNION SELECT opcname FROM pg_opclass UNION SELECT opfname FROM pg_opfamily UNION SELECT collname FROM pg_collation")
        known = {name for name, in cursor.fetchall()}
    for name, script in scripts.items():
        others, bare = bare_names(script, known)
        tests.check(f"{name} only defines objects", not others, others[:3])
        tests.check(f"{name} has the schema at each name of PostgreSQL", not bare, sorted(bare))
    others, bare = bare_names("DO $$BEGIN PERFORM format('%s', 1); END$$; CREATE FUNCTION f(text) RETURNS bytea LANGUAGE C AS ''", known)
    tests.check("a name without a schema is found", len(others) > 0 and {"text", "bytea", "format"} <= bare, (others, bare))
