"""An endpoint and a page over a folder of tstore: each layer and each label is a graph that is asked over HTTP.

`python3 -m tstore.serve FOLDER --at HOST:PORT [--write TOKENFILE]`; docs/SERVE.md is its manual. It wants Debian's python3-starlette,
python3-uvicorn, python3-rdflib and python3-jinja2.

Two kinds of processes: the server (`app`, `snapshots`, `pool`, `writer`), which holds the folder's readers and evaluates nothing, and
workers (`worker`), which evaluate what a request brought (`query`, `update`, `bodies`) and can open nothing: they ask the server for
listings over one socket (`frames`, `graphs`).
"""
