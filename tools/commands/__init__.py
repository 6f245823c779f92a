"""The sub-commands of ./gateway, a module each: its docstring is its help, the first line the one in the list; `arguments` names its words,
`check` refuses words that do not go together, `main` does it and answers the status. A new one is a module and its name here."""

NAMES = ("run", "record", "read", "show", "why", "summary", "figure", "compare", "picture", "page", "waveform", "merge", "input", "build")
