"""Tests of gate/manual.py, on small headers."""

import unittest
from datetime import date
from pathlib import Path

from gate import manual
from gate.process import Failed
from gate.temporary import temporary_folder

DAY = date(2001, 2, 3)
HEADER = """\
// demo: two kinds of things.

// EXAMPLE

//     int main(void) {
//
//         return 0;
//     }

// RULES

//  1. Only one thread
//     calls `bb_f`.

//  2. None.

#ifndef DEMO_H
#define DEMO_H

#ifdef __cplusplus
extern "C" {
#endif

//
// PLACES
//

#ifdef NUMBERS

// A number.
typedef size_t bb_place;

#else

// An address.
typedef void *bb_place;

#endif

// A handle.
typedef struct bb_pool {
    int at;
} bb_pool;

// clang-format off

// Fills a handle. It
// goes on.
#define BB_EMPTY {NULL, \\
                  false}

//
// POOL: buckets of `size`.
//

// The least size.
#define BB_LEAST(size) (size)

// Returns the least size.
static inline size_t bb_least(size_t size) {
    return BB_LEAST(size);
}

// Makes a pool.
BB_MUST_USE uint32_t bb_pool_init(bb_pool *pool,
                                  size_t size);

// The figures of a pool.
typedef struct bb_pool_figures {
    // The bytes.
    size_t size;

    // Where they
    // begin.
    void *start;
} bb_pool_figures;

// The calls.
//
// - one
//   and more
// - two
BB_MUST_USE __attribute__((malloc)) static inline void *bb_pool_get(void (*free)(int, int)) {
    return NULL;
}

//
// CODES
//

enum {
    // Done.
    BB_OK = 0,

    // The last one.
    BB_LAST = BB_OK
};

// The library, of which there is a page.
typedef struct bb_memory bb_memory;

// Returns the name.
const char *bb_name(uint32_t code);

// About the code here.
#if defined(X)
#endif

#endif
"""


class Sections(unittest.TestCase):
    """The sections and the declarations of a header."""

    def test_titles_and_names(self) -> None:
        found = manual.sections_of(HEADER)
        self.assertEqual(
            [(each.title, each.about) for each in found],
            [("", ""), ("PLACES", "places"), ("POOL", "buckets of `size`."), ("CODES", "codes")],
        )
        names = [[item.names for item in each.items] for each in found]
        pool = [("BB_LEAST",), ("bb_least",), ("bb_pool_init",), ("bb_pool_figures",)]
        places = [("bb_place",), ("bb_pool",), ("BB_EMPTY",)]
        codes = [(), ("bb_memory",), ("bb_name",)]
        expected = [[], places, [*pool, ("bb_pool_get",)], codes]
        self.assertEqual(names, expected)

    def test_the_page_is_named_for_the_handle_or_the_first_function(self) -> None:
        _, _, pool, codes = manual.sections_of(HEADER)
        self.assertEqual((pool.page, codes.page), ("bb_pool", "bb_name"))

    def test_the_second_branch_of_the_preprocessor_counts(self) -> None:
        places = manual.sections_of(HEADER)[1]
        self.assertEqual(places.items[0].lines, ("typedef void *bb_place;",))

    def test_a_declaration_of_another_kind(self) -> None:
        text = "// Some number.\nextern int number;\n\n"
        with self.assertRaisesRegex(Failed, "no page can show: extern int number;"):
            manual.sections_of(text)


class Roff(unittest.TestCase):
    """Comments and declarations as roff."""

    def test_sentences_names_and_code(self) -> None:
        lines = ["Frees `a-b` of (`bb_f` or bb_g.) Twice", "is refused. e.g. not"]
        first = r"Frees \fBa\-b\fP of \%(\fBbb_f\fP or \%bb_g.)"
        expected = [first, "Twice is refused. e.g. not"]
        self.assertEqual(manual.roff(lines), expected)

    def test_a_line_that_looks_like_a_request(self) -> None:
        self.assertEqual(manual.roff([".so x"]), [r"\&.so x"])
        self.assertEqual(manual.roff(["    .x\\n"]), [*LITERAL, r"\&.x\en", ".Ed"])

    def test_paragraphs_and_literal_lines(self) -> None:
        lines = ["One:", "", "    a", "", "      b", "", "Two.", "", "Three."]
        literal = [*LITERAL, "a", "", "  b", ".Ed"]
        expected = ["One:", *literal, ".Pp", "Two.", ".Pp", "Three."]
        self.assertEqual(manual.roff(lines), expected)

    def test_lists(self) -> None:
        numbered = [" 9. Nine", "    goes on.", "", "    Again.", "", "10. Ten.", "", "End."]
        begin = ".Bl -tag -width 3n"
        nine = [".It 9.", "Nine goes on.", ".Pp", "Again."]
        expected = [begin, *nine, ".It 10.", "Ten.", ".El", ".Pp", "End."]
        self.assertEqual(manual.roff(numbered), expected)
        self.assertEqual(
            manual.roff(["Two:", "- one", "  and more", "- two"]),
            ["Two:", ".Bl -bullet", ".It", "one and more", ".It", "two", ".El"],
        )

    def test_a_table(self) -> None:
        rows = ["| Handle | Frees | Notes |", "|---|---|---|", "| `a` | one | |", "| b | all | c |"]
        first = [r".It \fBa\fP", "Frees: one."]
        second = [".It b", "Frees: all.", "Notes: c."]
        self.assertEqual(manual.roff(rows), [".Bl -tag -width Ds", *first, *second, ".El"])

    def test_members(self) -> None:
        figures = manual.sections_of(HEADER)[2].items[3]
        size = [".It size_t size", "The bytes."]
        start = [".It void *start", "Where they begin."]
        expected = [".Bl -tag -width Ds", *size, *start, ".El"]
        self.assertEqual(list(manual.members(figures.lines)), expected)
        plain = ["typedef struct bb {", "    int at;", "} bb;"]
        self.assertEqual(list(manual.members(plain)), [*LITERAL, *plain, ".Ed"])

    def test_constants(self) -> None:
        codes = manual.sections_of(HEADER)[3].items[0]
        expected = [".It BB_OK = 0", "Done.", ".It BB_LAST = BB_OK", "The last one."]
        self.assertEqual(list(manual.members(codes.lines))[1:-1], expected)


LITERAL = (".Bd -literal -offset indent",)


class Pages(unittest.TestCase):
    """The pages about a header, and the links."""

    def setUp(self) -> None:
        self.pages = manual.pages_of("bb_memory.h", HEADER, DAY)

    def test_pages_and_links(self) -> None:
        links = {name: text for name, text in self.pages.items() if "\n" not in text}
        expected = {
            "bb_place": "bb_memory.3",
            "BB_EMPTY": "bb_memory.3",
            "BB_LEAST": "bb_pool.3",
            "bb_least": "bb_pool.3",
            "bb_pool_init": "bb_pool.3",
            "bb_pool_figures": "bb_pool.3",
            "bb_pool_get": "bb_pool.3",
        }
        self.assertEqual(links, expected)
        pages = sorted(self.pages.keys() - links.keys())
        self.assertEqual(pages, ["bb_memory", "bb_name", "bb_pool"])

    def test_a_page(self) -> None:
        codes = """\
.Dd February 3, 2001
.Dt BB_NAME 3
.Os
.Sh NAME
.Nm bb_name
.Nd codes
.Sh SYNOPSIS
.In bb_memory.h
.Ft const char *
.Fo bb_name
.Fa "uint32_t code"
.Fc
.Sh DESCRIPTION
.Ss Constants
.Bl -tag -width Ds
.It BB_OK = 0
Done.
.It BB_LAST = BB_OK
The last one.
.El
.Ss bb_memory
The library, of which there is a page.
.Bd -literal -offset indent
typedef struct bb_memory bb_memory;
.Ed
.Ss bb_name
Returns the name.
.Sh SEE ALSO
.Xr bb_memory 3 ,
.Xr bb_pool_file 3
"""
        self.assertEqual(self.pages["bb_name"], codes)

    def test_the_overview(self) -> None:
        lines = self.pages["bb_memory"].splitlines()
        heads = [line for line in lines if line.startswith((".Sh", ".Ss", ".Nm", ".Xr"))]
        names = [".Nm bb_memory ,", ".Nm bb_place ,", ".Nm BB_EMPTY"]
        titles = [".Sh SYNOPSIS", ".Sh DESCRIPTION", ".Sh EXAMPLES", ".Sh RULES", ".Sh PLACES"]
        items = [".Ss bb_place", ".Ss bb_pool", ".Ss BB_EMPTY"]
        seen = [".Xr bb_name 3 ,", ".Xr bb_pool 3 ,", ".Xr bb_pool_file 3"]
        expected = [".Sh NAME", *names, *titles, *items, ".Sh SEE ALSO", *seen]
        self.assertEqual(heads, expected)

    def test_synopses(self) -> None:
        lines = self.pages["bb_pool"].splitlines()
        init = [".Ft BB_MUST_USE uint32_t", ".Fo bb_pool_init", '.Fa "bb_pool *pool"']
        free = ['.Fa "void (*free)(int"', r'.Fa "int)\&"']
        get = [".Ft BB_MUST_USE void *", ".Fo bb_pool_get", *free, ".Fc"]
        least = [".Ft size_t", ".Fo bb_least", '.Fa "size_t size"', ".Fc"]
        at = lines.index(".Sh SYNOPSIS") + 2
        expected = [*least, *init, '.Fa "size_t size"', ".Fc", *get, ".Sh DESCRIPTION"]
        self.assertEqual(lines[at : lines.index(".Sh DESCRIPTION") + 1], expected)
        self.assertIn(".Ss BB_LEAST(size)", lines)
        self.assertIn(".Nd buckets of size", lines)

    def test_two_pages_of_one_name(self) -> None:
        with self.assertRaisesRegex(Failed, "one name"):
            manual.pages_of("bb_memory.h", HEADER.replace("bb_name", "bb_pool"), DAY)


class Written(unittest.TestCase):
    """The folders with all pages."""

    def test_files_links_and_commands(self) -> None:
        head = '#define BB_VERSION "1.2.3"\n'
        texts = {
            f"{manual.CRATE}/bb_memory.h": head + HEADER,
            f"{manual.CRATE}/bb_pool_file.h": "// A file.\n\n",
            "CHANGELOG.md": "## 1.2.3 (2001-02-03)\n",
        }
        command = ".Dd @DATE@\n.Dt X 1\n"
        with temporary_folder() as work:
            manual.write(work, texts, {"x.1": command})
            names = {str(file.relative_to(work)) for file in work.rglob("*.?")}
            self.assertEqual(Path(work / "man3/bb_place.3").readlink(), Path("bb_memory.3"))
            page = (work / "man1/x.1").read_text(encoding="utf-8")
        self.assertEqual(page, ".Dd February 3, 2001\n.Dt X 1\n")
        pages = {"man1/x.1", "man3/bb_pool_file.3", "man3/bb_memory.3", "man3/bb_name.3"}
        self.assertLess(pages, names)


if __name__ == "__main__":
    unittest.main()
