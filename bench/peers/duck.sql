-- Files by DuckDB, all uncompressed: its types that pqscan reads or refuses, both forms of pages, row groups, and dictionaries of several sizes.
SET threads = 1;
SET preserve_insertion_order = true;
CREATE TYPE kind AS ENUM ('one', 'two', 'three');
CREATE TABLE t AS SELECT
    (i % 7 = 0) AS b, CASE WHEN i % 5 = 0 THEN NULL ELSE i % 3 = 0 END AS bn,
    CASE WHEN i % 5 = 0 THEN NULL ELSE (i * 37 % 251) - 125 END::TINYINT AS i8, (i * 7919 % 60000 - 30000)::SMALLINT AS i16,
    CASE WHEN i % 11 = 0 THEN NULL ELSE i * 3 - 500 END::INTEGER AS i32, (i::BIGINT * 1000003 - 5) AS i64,
    (i % 256)::UTINYINT AS u8, (i * 13 % 65536)::USMALLINT AS u16, (i * 400000 % 4294967296)::UINTEGER AS u32, (i::UBIGINT * 18446744073709::UBIGINT) AS u64,
    DATE '1970-01-01' + (i - 100)::INTEGER AS d32, TIMESTAMP '2020-01-01 00:00:00' + INTERVAL (i) SECOND AS tsus,
    (TIMESTAMP '1969-12-31 23:59:00' + INTERVAL (i) SECOND)::TIMESTAMP_MS AS tsms, (TIMESTAMP '2020-01-01' + INTERVAL (i) SECOND)::TIMESTAMP_NS AS tsns,
    (TIMESTAMP '2020-01-01' + INTERVAL (i) SECOND)::TIMESTAMP_S AS tss, (TIMESTAMP '2020-01-01' + INTERVAL (i) SECOND)::TIMESTAMPTZ AS tsz,
    TIME '00:00:01' + INTERVAL (i) SECOND AS t64u, to_days(i::INTEGER) AS span,
    ((i % 790) * 1.25 - 100)::DECIMAL(5,2) AS dec5, (i * 1000.125)::DECIMAL(15,3) AS dec15, (i * 1000.125 - 5000)::DECIMAL(30,4) AS dec30,
    CASE WHEN i % 3 = 0 THEN NULL ELSE 'r' || i END AS str, 'w' || (i % 5) AS few, (['one', 'two', 'three'])[1 + i % 3]::kind AS word,
    CASE WHEN i % 4 = 0 THEN NULL ELSE encode('x' || i) END AS bin, ('00000000-0000-0000-0000-' || lpad((i * 7)::VARCHAR, 12, '0'))::UUID AS id,
    NULL::INTEGER AS none, i::DOUBLE / 4 AS f, [i, NULL] AS l, {'x': i, 'y': 'a' || i} AS s
FROM range(300) r(i);
COPY t TO 'types_v1.parquet' (FORMAT parquet, COMPRESSION uncompressed, PARQUET_VERSION V1);
COPY t TO 'types_v2.parquet' (FORMAT parquet, COMPRESSION uncompressed, PARQUET_VERSION V2);
COPY (SELECT * FROM t WHERE false) TO 'empty.parquet' (FORMAT parquet, COMPRESSION uncompressed);
COPY (SELECT * FROM t LIMIT 1) TO 'one_row.parquet' (FORMAT parquet, COMPRESSION uncompressed);
CREATE TABLE big AS SELECT i::INTEGER AS n, 'r' || (i % 1000) AS few, 'long text number ' || i AS many, CASE WHEN i % 3 = 0 THEN NULL ELSE i END::BIGINT AS i64,
    CASE WHEN i // 2048 = 1 THEN NULL ELSE i END AS gone, (i % 2 = 0) AS b, repeat('y', i % 300) AS wide FROM range(5000) r(i);
COPY big TO 'groups_v1.parquet' (FORMAT parquet, COMPRESSION uncompressed, ROW_GROUP_SIZE 2048, PARQUET_VERSION V1);
COPY big TO 'groups_v2.parquet' (FORMAT parquet, COMPRESSION uncompressed, ROW_GROUP_SIZE 2048, PARQUET_VERSION V2);
COPY big TO 'plain_v1.parquet' (FORMAT parquet, COMPRESSION uncompressed, PARQUET_VERSION V1, DICTIONARY_SIZE_LIMIT 1);
COPY big TO 'plain_v2.parquet' (FORMAT parquet, COMPRESSION uncompressed, PARQUET_VERSION V2, DICTIONARY_SIZE_LIMIT 1);
