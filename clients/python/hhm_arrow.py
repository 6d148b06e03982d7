"""A sum as a table of Arrow, for pandas, polars, DuckDB and Spark. Needs pyarrow.

    table = to_arrow("packets.snap")        # or of a Client, or of a Matrix Market text, as hhm_cells.sum_of reads them
    table.to_pandas(); pyarrow.parquet.write_table(table, "packets.parquet")

The table has the columns `row`, `column` and `count` of unsigned 64-bit numbers, by row and then by column. Its
metadata has the numbers of rows and columns of the sum, as `hhm.rows` and `hhm.cols`.
"""
from hhm_cells import Source, sum_of

try:
    import pyarrow as pa
except ImportError as fault:
    raise ImportError(f"{fault}: hhm_arrow needs pyarrow") from None


def to_arrow(source: Source, program: str = "hhm") -> pa.Table:
    """The sum of a server or of a file. It raises what `hhm_cells.sum_of` raises."""
    total = sum_of(source, program)
    columns = [pa.Array.from_buffers(pa.uint64(), len(part), [None, pa.py_buffer(part)]) for part in total.cells]
    metadata = {"hhm.rows": str(total.rows), "hhm.cols": str(total.cols)}
    return pa.table(columns, names=["row", "column", "count"]).replace_schema_metadata(metadata)
