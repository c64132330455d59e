"""Tries the plugin for vim and neovim: in neovim with the server, and the filetype, the colours and
`:make` in both."""
from __future__ import annotations

import json
import os
import shutil
import subprocess
import unittest
from typing import Any

from pages import block, for_this_place
from support import FAULTY, InFolder

SCORE = "name: a;\nnabc-lines: 1; % b\n%%\n(c4) <i>K</i>$<(f.[x]|viS1|g)%c\ny(;) <sp>R/</sp>(::)\n"
# The names of the colours at places of this score, by line and column from 1.
COLOURS = {
    (1, 1): "gabcHeaderName",
    (1, 7): "gabcHeaders",
    (2, 16): "gabcHeaderComment",
    (3, 1): "gabcHeaderEnd",
    (4, 1): "gabcBracket",
    (4, 2): "gabcClef",
    (4, 6): "gabcTag",
    (4, 9): "",
    (4, 15): "gabcEscape",
    (4, 17): "gabcNote",
    (4, 19): "gabcAttribute",
    (4, 23): "gabcNabc",
    (4, 28): "gabcNote",
    (4, 30): "gabcComment",
    (5, 3): "gabcBar",
    (5, 10): "gabcSpecial",
}
# Writes what neovim shows to the file `shown`, each time once the server has told something new.
TRIAL = """
local lines = {}
local function put(what, told)
  table.insert(lines, vim.fn.json_encode({ what, told, vim.api.nvim_buf_get_lines(0, 0, -1, false) }))
end
local function messages()
  local found = {}
  for _, it in ipairs(vim.diagnostic.get(0)) do
    table.insert(found, { it.lnum, it.col, it.code or it.user_data.lsp.code, (it.message:gsub("\\n.*", "")) })
  end
  return found
end
local function await(count)
  vim.wait(60000, function() return #vim.diagnostic.get(0) == count end, 20)
  return messages()
end
local function ask(method, params)
  params.textDocument = vim.lsp.util.make_text_document_params()
  local answers = vim.lsp.buf_request_sync(0, "textDocument/" .. method, params, 60000)
  local names = {}
  for _, it in pairs(answers) do
    for _, found in ipairs(it.result) do table.insert(names, found.name or found.label) end
  end
  return names
end
local function line(number, text) vim.api.nvim_buf_set_lines(0, number, number + 1, false, { text }) end
put("opened " .. vim.bo.filetype, await(1))
line(2, "(c4)   Ky(f)ri(g)")
put("edited", await(0))
line(2, "   <x>(f)")
put("edited again", await(2))
if vim.lsp.buf.format then vim.lsp.buf.format({ timeout_ms = 60000 }) else vim.lsp.buf.formatting_sync(nil, 60000) end
vim.wait(60000, function() return (vim.diagnostic.get(0)[1] or {}).col == 0 end, 20)
put("formatted", messages())
line(2, "(c4) Ky>(f)ri(g)")
put("a repair is wanted", await(1))
vim.ui.select = function(items, _, choose) choose(items[1]) end
vim.api.nvim_win_set_cursor(0, { 3, 0 })
vim.lsp.buf.code_action()
put("repaired", await(0))
put("symbols", ask("documentSymbol", {}))
local shown
local function keep(_, told) shown = told.uri or told.message:match("file:.*") return { success = true } end
vim.lsp.handlers["window/showDocument"], vim.lsp.handlers["window/showMessage"] = keep, keep
vim.api.nvim_win_set_cursor(0, { 3, 5 })
vim.cmd("GregorioShow")
vim.wait(60000, function() return shown end, 20)
put("picture", table.concat(vim.fn.readfile(vim.uri_to_fname(shown)), "\\n"):match('<a href="(.-)"'))
line(2, "(c4) <sp>")
put("completed", vim.list_slice(ask("completion", { position = { line = 2, character = 9 } }), 1, 2))
line(2, "(c4) <s")
vim.api.nvim_win_set_cursor(0, { 3, 7 })
local offered
vim.fn.complete = function(column, items) offered = { column, items[1].word, items[2].word } end
vim.fn.mode = function() return "i" end
vim.cmd("startinsert!")
vim.lsp.omnifunc(1, "")
vim.wait(60000, function() return offered end, 20)
put("completed by omnifunc", offered)
vim.cmd("edit! b.gabc")
put("another score", await(1))
put("servers", #(vim.lsp.get_clients or vim.lsp.get_active_clients)())
vim.fn.writefile(lines, "shown")
vim.cmd("qall!")
"""


class Editing(InFolder):
    def run_editor(self, *words: str) -> list[Any]:
        """Runs an editor, which writes JSON to the file `shown`, and returns that."""
        homes = {
            it: str(self.room / "home")
            for it in (
                "HOME",
                "XDG_CONFIG_HOME",
                "XDG_DATA_HOME",
                "XDG_STATE_HOME",
                "XDG_CACHE_HOME",
            )
        }
        ran = subprocess.run(
            words,
            env={**os.environ, **homes},
            stdin=subprocess.DEVNULL,
            capture_output=True,
            timeout=300,
            check=False,
        )
        self.assertEqual(ran.returncode, 0, ran.stderr)
        return [
            json.loads(it)
            for it in (self.room / "shown").read_text(encoding="utf-8").split("\n")[:-1]
        ]

    def check_colours(self, *words: str) -> None:
        """Checks the colours and the list of `:make` of an editor that these words start."""
        self.put("a.gabc", SCORE)
        self.put("b.gabc", FAULTY)
        names = ", ".join(
            f"synIDattr(synID({line}, {column}, 1), 'name')" for line, column in COLOURS
        )
        self.put(
            "trial.vim",
            f"""edit a.gabc
call writefile([json_encode([&filetype, &commentstring]), json_encode([{names}])], 'shown')
edit b.gabc
silent make!
call writefile([json_encode(map(getqflist(), '[v:val.lnum, v:val.col, v:val.type, v:val.text]'))], 'shown', 'a')
qall!
""",
        )
        settings, colours, listed = self.run_editor(*words, "-S", "trial.vim")
        self.assertEqual(settings, ["gabc", "% %s"])
        self.assertEqual(dict(zip(COLOURS, colours)), COLOURS)
        self.assertEqual(listed, [[3, 10, "e", "E1: character left out of the notes"]])

    @unittest.skipUnless(
        shutil.which("vim") and shutil.which("gregorio-chant"),
        "there is no vim, or no gregorio-chant on the path",
    )
    def test_vim(self) -> None:
        self.put("vimrc", for_this_place(block("docs/EDITORS.md", "editor: vim")))
        self.check_colours("vim", "-N", "-es", "-n", "-u", "vimrc")

    @unittest.skipUnless(
        shutil.which("nvim") and shutil.which("gregorio-chant"),
        "there is no neovim, or no gregorio-chant on the path",
    )
    def test_neovim_by_itself(self) -> None:
        self.put("init.lua", for_this_place(block("docs/EDITORS.md", "editor: neovim")))
        self.check_colours("nvim", "--headless", "-n", "-u", "init.lua")

    @unittest.skipUnless(
        shutil.which("nvim") and shutil.which("gregorio-chant"),
        "there is no neovim, or no gregorio-chant on the path",
    )
    def test_neovim(self) -> None:
        self.put(
            "init.lua",
            'vim.g.gregorio_chant_server = { "gregorio-chant", "server", "--rules" }\n'
            + for_this_place(block("docs/EDITORS.md", "editor: neovim")),
        )
        self.put("trial.lua", TRIAL)
        self.put("a b.gabc", FAULTY)
        self.put("b.gabc", "name: a;\n%%\n(c5)\n")
        shown = self.run_editor(
            "nvim", "--headless", "-u", "init.lua", "-n", "a b.gabc", "-c", "luafile trial.lua"
        )
        head, other = ["name: Kyrie;", "%%"], ["name: a;", "%%", "(c5)"]
        no_clef = "note before any clef"
        self.assertEqual(
            shown,
            [
                [
                    "opened gabc",
                    [[2, 9, "E1", "character left out of the notes"]],
                    [*head, "(c4) Ky(g5)ri(g)"],
                ],
                ["edited", [], [*head, "(c4)   Ky(f)ri(g)"]],
                [
                    "edited again",
                    [[2, 3, "W6", "tag not known"], [2, 8, "W12", no_clef]],
                    [*head, "   <x>(f)"],
                ],
                [
                    "formatted",
                    [[2, 0, "W6", "tag not known"], [2, 5, "W12", no_clef]],
                    [*head, "<x>(f)"],
                ],
                [
                    "a repair is wanted",
                    [[2, 7, "E2", "character left out of the text"]],
                    [*head, "(c4) Ky>(f)ri(g)"],
                ],
                ["repaired", [], [*head, "(c4) Ky$>(f)ri(g)"]],
                ["symbols", ["name: Kyrie", "1. Ky>ri"], [*head, "(c4) Ky$>(f)ri(g)"]],
                ["picture", "1.html#s2", [*head, "(c4) Ky$>(f)ri(g)"]],
                ["completed", ["ae", "oe"], [*head, "(c4) <sp>"]],
                ["completed by omnifunc", [6, "<sc>", "<sp>"], [*head, "(c4) <s"]],
                [
                    "another score",
                    [
                        [
                            2,
                            1,
                            "clef-off-staff",
                            "the clef c5 needs a line 5, but the staff has 4 lines",
                        ]
                    ],
                    other,
                ],
                ["servers", 1, other],
            ],
        )


if __name__ == "__main__":
    unittest.main()
