"""Rows of pqscan, over files of the rows of pqinspect."""
from .table import each_read, each_write, note, refused, row

note("pqscan: the examples of its manual")
F1_ROWS = r"""
group 0 5 0+5
chunk 5
10
12
15
18
20
"""
row("pqscan f1.parquet a:Int32", F1_ROWS)
row("pqscan f1.parquet a:Int32 a>=12 a<=18", F1_ROWS)
row("pqscan f1.parquet --summary a:Int32 a>=21", r"""
group 0 5 -
rows 0
pages 0
""")
SIX_ROWS = """
group 0 6 0+6
chunk 4
0\tnull\t"r0"
1\t1\t"r1"
2\t2\t"r2"
3\t3\t"r3"
chunk 2
4\t4\t"r4"
5\tnull\t"r5"
"""
row("pqscan @sample:6:0 id:Int64 qty:Int32 name:Utf8 --chunk 4", SIX_ROWS)
row("pqscan six.parquet id:Int64 qty:Int32 name:Utf8 --chunk 4", SIX_ROWS)

note("pqscan: in memory, byte by byte, and with failures")
row("memory pqscan f1.parquet a:Int32 a>=12 a<=18", F1_ROWS)
row("memory pqscan @sample:6:0 id:Int64 qty:Int32 name:Utf8 --chunk 4", SIX_ROWS)
row("bytewise pqscan six.parquet id:Int64 qty:Int32 name:Utf8 --chunk 4", SIX_ROWS)
each_read("pqscan f1.parquet a:Int32 a>=12 a<=18", 1, F1_ROWS)
each_write("pqscan f1.parquet a:Int32 a>=12 a<=18", F1_ROWS)
each_write("pqscan @sample:6:0 id:Int64 qty:Int32 name:Utf8 --chunk 4", SIX_ROWS)

note("pqscan: pruning by pages, a limit, and endings")
row("pqscan @sample:2000:0 qty:Int32 id:Int64 id>=1500 --limit 3", """
group 0 2000 1000+1000
chunk 3
null\t1000
1\t1001
2\t1002
""")
row("pqscan @sample:2000:0 id:Int64 qty:Int32 id>=1500 qty<=50 --summary", r"""
group 0 2000 1000+400
rows 400
pages 2
""")
row("pqscan f0.parquet a:Int32")
refused("pqscan", 2)
refused("pqscan f1.parquet a:Int32 a>=x", 2)
refused("pqscan f1.parquet b:Int32", 3)
refused("pqscan f1.parquet a:Int32 --chunk 0", 3)
refused("pqscan f1.parquet a:Utf8", 4)
refused("pqscan short.parquet a:Int32", 5)
refused("pqscan nowhere.parquet a:Int32", 8)
