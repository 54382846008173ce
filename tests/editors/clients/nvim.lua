-- nvim --headless -u NONE -i NONE -n -c 'luafile nvim.lua': Neovim's own client of the server in SERVER, over the chart in CHART. It prints
-- what it saw, a line each.
local function say(...) io.stdout:write(table.concat(vim.tbl_map(tostring, { ... }), " "), "\n") end
local function wait(f) return vim.wait(20000, f, 20) end
vim.cmd("edit " .. os.getenv("CHART"))
vim.bo.filetype = "sfc-chart"
local words = vim.split(os.getenv("SERVER"), " ")
local id = vim.lsp.start_client({ name = "sfcmon", cmd = words, root_dir = vim.fn.getcwd() })
vim.lsp.buf_attach_client(0, id)
say("connected", wait(function() local c = vim.lsp.get_client_by_id(id); return c and c.initialized end))
wait(function() return #vim.diagnostic.get(0) > 0 end)
for _, d in ipairs(vim.diagnostic.get(0)) do say("fault", d.lnum + 1 .. ":" .. d.col + 1, d.code) end

-- ask METHOD LINE COLUMN: what is answered there, with more parameters
local function ask(method, line, column, more)
  local given = { textDocument = vim.lsp.util.make_text_document_params(0), position = { line = line - 1, character = column - 1 } }
  local answers = vim.lsp.buf_request_sync(0, method, vim.tbl_extend("force", given, more or {}), 20000)
  return answers and answers[id] and answers[id].result
end
local function first(found) return found[1] or found end
say("hover", ask("textDocument/hover", 14, 21).contents.value:find("Idle.T", 1, true) ~= nil)
say("definition", first(ask("textDocument/definition", 14, 28)).range.start.line + 1)
say("references", #ask("textDocument/references", 7, 8, { context = { includeDeclaration = true } }))
for _, symbol in ipairs(ask("textDocument/documentSymbol", 1, 1)) do say("symbol", symbol.name, #symbol.children) end

-- where "did you mean" is taken, the fault goes
local fault = vim.diagnostic.get(0)[1]
local range = { start = { line = fault.lnum, character = fault.col }, ["end"] = { line = fault.end_lnum, character = fault.end_col } }
local actions = ask("textDocument/codeAction", 15, 43, { range = range, context = { diagnostics = { fault.user_data.lsp or fault } } })
say("action", actions[1].title)
vim.lsp.util.apply_workspace_edit(actions[1].edit, "utf-16")
say("mended", wait(function() return #vim.diagnostic.get(0) == 0 end), vim.api.nvim_buf_get_lines(0, 14, 15, true)[1])

-- a step is renamed, in all its places
vim.lsp.util.apply_workspace_edit(ask("textDocument/rename", 7, 8, { newName = "Running" }), "utf-16")
say("renamed", table.concat({ vim.fn.getline(7), vim.fn.getline(14), vim.fn.getline(15), vim.fn.getline(16) }, "|"))

-- a text with other indents is formatted to what it was
local before = vim.api.nvim_buf_get_lines(0, 0, -1, true)
vim.api.nvim_buf_set_lines(0, 6, 7, true, { "STEP Running:   " })
vim.lsp.util.apply_text_edits(ask("textDocument/formatting", 1, 1, { options = { tabSize = 2, insertSpaces = true } }), 0, "utf-16")
say("formatted", vim.deep_equal(before, vim.api.nvim_buf_get_lines(0, 0, -1, true)))
vim.lsp.stop_client(id)
say("left", wait(function() return vim.lsp.get_client_by_id(id) == nil end))
vim.cmd("qa!")
