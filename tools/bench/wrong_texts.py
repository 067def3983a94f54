"""Texts with errors as people make them, by hand: for each language a list."""

C = [
    # a semicolon is missing after a declaration, a call, a return, a structure
    "int main(void) {\n    int a = 1\n    return a;\n}\n",
    "int main(void) {\n    int a;\n    a = f(1, 2)\n    return a;\n}\n",
    "int f(int a) {\n    if (a > 1)\n        return a\n    return 0;\n}\n",
    "struct point {\n    int x;\n    int y;\n}\nint f(void) { return 0; }\n",
    # a bracket is missing, or there is one too many
    "int f(int a) {\n    return (a + 1;\n}\n",
    "int f(int a) {\n    return g((a + 1) * 2, (a - 1);\n}\n",
    "int f(int a) {\n    if (a > 1 {\n        a = 1;\n    }\n    return a;\n}\n",
    "int f(int a) {\n    if a > 1) {\n        a = 1;\n    }\n    return a;\n}\n",
    "int f(int a) {\n    while (a > 1) {\n        a = a - 1;\n    return a;\n}\n",
    "int f(int a) {\n    a = a + 1;\n    }\n    return a;\n}\n",
    "int f(int a) {\n    return g(a, 1));\n}\n",
    "int a[3] = { 1, 2, 3;\n",
    "int f(int a) {\n    b[a = 1;\n    return 0;\n}\n",
    # a comma or an operator is missing, or there is one too many
    "int f(int a, int b, ) {\n    return a;\n}\n",
    "int f(int a int b) {\n    return a;\n}\n",
    "int f(int a) {\n    return g(a b);\n}\n",
    "int f(int a) {\n    return a +;\n}\n",
    "int f(int a) {\n    return a + * 2 / ;\n}\n",
    "int f(int a) {\n    int b = = a;\n    return b;\n}\n",
    "int f(int a) {\n    return 2 a;\n}\n",
    # parts of statements are missing
    "int f(int a) {\n    for (a = 0, a < 10, a++) {\n        g(a);\n    }\n    return a;\n}\n",
    "int f(int a) {\n    for (a, b, c)\n        g(a);\n    return a;\n}\n",
    "int f(int a) {\n    do {\n        a = a + 1;\n    } (a < 10);\n    return a;\n}\n",
    "int f(int a) {\n    switch (a) {\n    case 1\n        return 2;\n    default:\n        return 3;\n    }\n}\n",
    "int f(int a) {\n    else {\n        a = 1;\n    }\n    return a;\n}\n",
    "int f(int a) {\n    if (a) then a = 1;\n    return a;\n}\n",
    # words of other languages, and a keyword as a name
    "int f(int a) {\n    int int = a;\n    return 0;\n}\n",
    "int f(int a) {\n    let b = a;\n    return b;\n}\n",
    "function f(a) {\n    return a;\n}\n",
    "int f(a: int) {\n    return a;\n}\n",
    # an initialiser, an enumeration and a type that aren't finished
    "enum color { RED, GREEN = , BLUE };\n",
    "int a[3] = { 1, , 3 };\n",
    "unsigned;\nint f(void) {\n    return (int;\n}\n",
    # a line that was pasted twice by half, and a statement outside a function
    "int f(int a) {\n    a = a + a = a + 1;\n    return a;\n}\nint g(void) {\n    return 1;\n",
    "int a;\na = 1;\nint f(void) {\n    return a;\n}\n",
]

JSON = [
    '{"a": 1, "b": 2,}\n',
    '[1, 2, 3,]\n',
    '{"a": 1 "b": 2}\n',
    '[1 2 3]\n',
    '{"a" 1}\n',
    '{"a": , "b": 1}\n',
    '{"a": {"b": [1, 2, {"c": 3}}\n',
    '{"a": [1, 2, 3}\n',
    '{"a": 1}}\n',
    '[{"a": 1}, {"b": 2}, {"c": 3]\n',
    '{1: "a", 2: "b"}\n',
    '{"a": "b": "c"}\n',
    '["a": 1, "b": 2]\n',
    '{"a", "b"}\n',
]

LUA = [
    "function f(a)\n  return a + 1\n",
    "function f(a)\n  if a > 1\n    return a\n  end\nend\n",
    "local a = 1 +\nlocal b = 2\n",
    "if a = 1 then\n  b = 2\nend\n",
    "for i = 1, 10\n  print(i)\nend\n",
    "local t = { 1, 2, 3\nprint(t)\n",
    "print(\"a\", b))\n",
    "local function (a)\n  return a\nend\n",
    "while a < 10 {\n  a = a + 1\n}\n",
    "a += 1\n",
    "local a = f(1, 2\nlocal b = 2\n",
    "if a then\n  b()\nelse if c then\n  d()\nend\n",
    "return a b\n",
    "x = = 1\n",
]
