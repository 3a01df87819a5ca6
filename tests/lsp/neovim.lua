-- What Neovim's built-in client sees of a source; tests/lsp/check runs it.
local lines = {}
local function say(text) table.insert(lines, text) end
local function finish()
  local file = io.open(os.getenv("OUT"), "w")
  file:write(table.concat(lines, "\n") .. "\n")
  file:close()
  vim.cmd("qa!")
end
local function start(settings)
  if vim.lsp.start then return vim.lsp.start(settings) end
  local number = vim.lsp.start_client(settings)
  vim.lsp.buf_attach_client(0, number)
  return number
end
local client = start({ name = "bcpl", cmd = { os.getenv("BCPL_LSP"), "lsp", "--include", "headers" }, root_dir = vim.fn.getcwd() })
local function ask(method, row, column, more)
  local params = { textDocument = { uri = vim.uri_from_bufnr(0) }, position = { line = row, character = column } }
  for key, value in pairs(more or {}) do params[key] = value end
  local answers = vim.lsp.buf_request_sync(0, method, params, 20000) or {}
  for _, answer in pairs(answers) do return answer.result, answer.err or answer.error end
end
vim.wait(20000, function() return #vim.diagnostic.get(0) > 0 end, 20)
for _, found in ipairs(vim.diagnostic.get(0)) do
  say(("diagnostic %d:%d-%d %s"):format(found.lnum, found.col, found.end_col, found.message))
end
vim.api.nvim_buf_set_text(0, 4, 17, 4, 18, { "N" })
vim.wait(20000, function() return #vim.diagnostic.get(0) == 0 end, 20)
say(("after the change: %d"):format(#vim.diagnostic.get(0)))
local hover = ask("textDocument/hover", 4, 10)
say("hover " .. hover.contents.value)
local place = ask("textDocument/definition", 4, 10)
say(("definition %d:%d"):format(place.range.start.line, place.range.start.character))
local edit = ask("textDocument/rename", 4, 10, { newName = "SUM" })
vim.lsp.util.apply_workspace_edit(edit, "utf-16")
say(table.concat(vim.api.nvim_buf_get_lines(0, 0, -1, false), "\n"))
local _, refused = ask("textDocument/rename", 4, 10, { newName = "IF" })
say("refused " .. (refused and refused.message or "no"))
vim.api.nvim_buf_set_lines(0, 3, 4, false, { "$(  LET N=1" })
local laid = ask("textDocument/formatting", 0, 0, { options = { tabSize = 3, insertSpaces = true } })
vim.lsp.util.apply_text_edits(laid, 0, "utf-16")
say(("layout %d: %s"):format(#laid, vim.api.nvim_buf_get_lines(0, 3, 4, false)[1]))
say(("symbols %d"):format(#ask("textDocument/documentSymbol", 0, 0)))
vim.opt.runtimepath:prepend(os.getenv("EDITORS") .. "/vim")
vim.cmd("filetype plugin on")
vim.api.nvim_buf_set_lines(0, 1, 1, false, { 'GET "DEFS"' })
vim.wait(20000, function() return #ask("textDocument/documentSymbol", 0, 0) == 2 end, 20)
vim.api.nvim_buf_set_lines(0, 5, 6, false, { "   WRITEN(SUM(N, LIMIT))" })
vim.wait(1000, function() return #vim.diagnostic.get(0) > 0 end, 20)
say(("with a header: %d"):format(#vim.diagnostic.get(0)))
vim.lsp.util.jump_to_location(ask("textDocument/definition", 5, 17), "utf-16")
say(("the header: %s %s"):format(vim.fn.expand("%:."), vim.bo.filetype))
vim.lsp.stop_client(client)
vim.wait(5000, function() return vim.lsp.client_is_stopped(client) end, 20)
say("stopped")
finish()
