"""How SQLAlchemy's statements, tables and types are spelled for drdad. What the server has not is refused here, with the reason."""
import re

from sqlalchemy import exc
from sqlalchemy.sql import compiler, elements, operators, schema

# The words of the grammar, none of which can be a name. No name is quoted.
WORDS = frozenset(
    "create table primary key not null smallint integer int bigint varchar varbinary insert into values update set where delete from "
    "select or and is".split())
SUMS = (operators.add, operators.sub)
NAME = re.compile(r"[A-Za-z][A-Za-z0-9_]*", re.ASCII)


def refuse(what):
    raise exc.CompileError(f"drdad {what}")


class Compiler(compiler.SQLCompiler):
    """Statements of one table. Columns have neither a table's name nor an alias: results are read by their places."""

    read_table = None

    @property
    def key_names(self):
        """The names of the key columns, in capitals, of the table that is read."""
        columns = self.read_table.primary_key.columns if isinstance(self.read_table, schema.Table) else ()
        return tuple(column.name.upper() for column in columns)

    def visit_table(self, table, asfrom=False, **words):
        if asfrom:
            if self.read_table is not None:
                refuse(f"reads one table in a statement, and this one reads {self.read_table} and {table}")
            self.read_table = table
        return super().visit_table(table, asfrom=asfrom, **words)

    def visit_alias(self, alias, asfrom=False, **words):
        if not asfrom or not isinstance(alias.element, schema.Table):
            refuse("has no subqueries")
        return self.visit_table(alias.element, asfrom=True)

    def visit_column(self, column, *places, **words):
        words["include_table"] = False
        return super().visit_column(column, *places, **words)

    def visit_label(self, label, add_to_result_map=None, within_label_clause=False, within_columns_clause=False,
                    render_label_as_label=None, result_map_targets=(), **words):
        if within_columns_clause and not within_label_clause:
            words["within_label_clause"] = True
            if add_to_result_map is not None:
                is_made = isinstance(label.name, elements._truncated_label)
                name = self._truncated_identifier("colident", label.name) if is_made else label.name
                add_to_result_map(name, label.name, (label, name) + label._alt_names + result_map_targets, label.type)
        return label.element._compiler_dispatch(self, within_columns_clause=within_columns_clause, **words)

    def visit_grouping(self, grouping, asfrom=False, within_sum=False, **words):
        """A sum has no parentheses in the grammar. Around a whole one they say nothing; inside they stay, and are refused."""
        if not within_sum and getattr(grouping.element, "operator", None) in SUMS:
            return grouping.element._compiler_dispatch(self, **words)
        return super().visit_grouping(grouping, asfrom=asfrom, **words)

    def visit_add_binary(self, binary, operator, **words):
        return self._generate_generic_binary(binary, " + ", **{**words, "within_sum": True})

    def visit_sub_binary(self, binary, operator, **words):
        return self._generate_generic_binary(binary, " - ", **{**words, "within_sum": True})

    def for_update_clause(self, select, **words):
        """What a unit reads nobody else writes until it ends."""
        return ""

    def group_by_clause(self, select, **words):
        if select._group_by_clauses:
            refuse("has no GROUP BY")
        return ""

    def get_select_precolumns(self, select, **words):
        if select._distinct:
            refuse("has no DISTINCT")
        return super().get_select_precolumns(select, **words)

    def visit_join(self, *_, **__):
        refuse("has no joins: read related rows by lazy='select' or 'selectin'")

    def visit_function(self, function, **words):
        refuse(f"has no functions, so no {function.name}()")

    def visit_compound_select(self, *_, **__):
        refuse("has no UNION, EXCEPT or INTERSECT")

    def visit_cte(self, *_, **__):
        refuse("has no WITH")

    def visit_savepoint(self, *_, **__):
        refuse("has no savepoints")


class DDLCompiler(compiler.DDLCompiler):
    """Tables with their columns and their key. Foreign keys are left out: nothing keeps them."""

    def create_table_constraints(self, table, **words):
        if not table.primary_key.columns:
            refuse(f"wants a primary key of 1 to 4 columns, and {table.name} has none")
        return super().create_table_constraints(table, **words)

    def get_column_specification(self, column, **words):
        if column.server_default is not None or column.computed is not None or column.identity is not None:
            refuse(f"makes no values: {column} has a server default")
        type_ = self.type_compiler.process(column.type, type_expression=column)
        return f"{self.preparer.format_column(column)} {type_}{'' if column.nullable else ' NOT NULL'}"

    def visit_primary_key_constraint(self, constraint, **words):
        names = ", ".join(self.preparer.format_column(column) for column in constraint.columns)
        return f"PRIMARY KEY ({names})"

    def visit_foreign_key_constraint(self, constraint, **words):
        return None

    def visit_unique_constraint(self, constraint, **words):
        refuse("keeps no column unique but the key")

    def visit_check_constraint(self, constraint, **words):
        refuse("has no CHECK")

    visit_column_check_constraint = visit_check_constraint

    def visit_create_index(self, create, *_, **__):
        refuse("has no indexes")

    def visit_drop_table(self, drop, **words):
        refuse("drops no tables")


class TypeCompiler(compiler.GenericTypeCompiler):
    """SMALLINT, INTEGER, BIGINT, VARCHAR and VARBINARY, whose lengths are in bytes."""

    def _with_length(self, name, type_):
        if not type_.length:
            refuse(f"wants a length of {name}, in bytes, from 1 to 2000: {type_!r}")
        return f"{name}({type_.length})"

    def visit_VARCHAR(self, type_, **words):
        return self._with_length("VARCHAR", type_)

    visit_NVARCHAR = visit_TEXT = visit_text = visit_unicode_text = visit_enum = visit_VARCHAR

    def visit_VARBINARY(self, type_, **words):
        return self._with_length("VARBINARY", type_)

    visit_large_binary = visit_VARBINARY

    def visit_boolean(self, type_, **words):
        return "SMALLINT"

    visit_BOOLEAN = visit_boolean

    def visit_uuid(self, type_, **words):
        return "VARCHAR(32)"

    def _refused(self, type_, **words):
        refuse(f"has no type for {type_!r}: it has SMALLINT, INTEGER, BIGINT, VARCHAR and VARBINARY (a TypeDecorator can store it as "
               "one of these)")

    visit_FLOAT = visit_REAL = visit_DOUBLE = visit_DOUBLE_PRECISION = visit_NUMERIC = visit_DECIMAL = _refused
    visit_DATE = visit_TIME = visit_DATETIME = visit_TIMESTAMP = visit_CHAR = visit_NCHAR = visit_BINARY = _refused
    visit_CLOB = visit_NCLOB = visit_BLOB = visit_JSON = visit_UUID = visit_ARRAY = _refused


class IdentifierPreparer(compiler.IdentifierPreparer):
    """Names as they are: the letters of either case are the same, and none is quoted."""

    reserved_words = WORDS

    def quote(self, ident, force=None):
        if not NAME.fullmatch(ident) or len(ident) > self.dialect.max_identifier_length or ident.lower() in WORDS:
            refuse(f"takes no name {ident!r}: a name is a letter, then letters, digits and _, of at most 30 bytes, and no word of SQL's")
        return ident

    def quote_identifier(self, value):
        return self.quote(value)

    def quote_schema(self, name, force=None):
        refuse(f"has no schemas, so no {name}")
