"""A model of the rules of docs/FORMATS.md, and of those of docs/DOSLINK.md and docs/DOSLIB.md.

The linker is proved to keep its contracts. Whether those contracts say what docs/FORMATS.md says,
and whether that page can be followed by someone who has nothing else, no proof tells. So the rules
are told once more here, from that page alone; no code is shared with the linker or with tools/.
The model spends no thought on speed.

What each file tells stands at its head; compare/README.md has a list of it.

An `owner` is the number of an input, and of its module, from 0 on. A `place` is how many bytes come
before a record. Left out are devices that fail while they are read or written, and want of memory.
"""
