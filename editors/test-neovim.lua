-- What editors/test-neovim does in Neovim.
local failed = false

local function step(name, good, said)
  io.stdout:write((good and "ok    " or "FAILED") .. " " .. name .. (said and (": " .. said) or "") .. "\n")
  failed = failed or not good
end

local buffer = vim.api.nvim_get_current_buf()
local id = vim.lsp.start_client({ name = "pest", cmd = { os.getenv("SERVER") }, root_dir = vim.fn.getcwd() })
vim.lsp.buf_attach_client(buffer, id)

local function wait(test)
  return vim.wait(5000, test, 20)
end

local function lines()
  return table.concat(vim.api.nvim_buf_get_lines(buffer, 0, -1, false), "\n")
end

local function request(method, params)
  local answers = vim.lsp.buf_request_sync(buffer, method, params, 5000) or {}
  local answer = answers[id] or {}
  return answer.result, answer.err or answer.error
end

local function at(line, character)
  return { textDocument = { uri = vim.uri_from_bufnr(buffer) }, position = { line = line, character = character } }
end

step("attached", wait(function() return vim.lsp.buf_is_attached(buffer, id) end))
step("one error", wait(function() return #vim.diagnostic.get(buffer) == 1 end))
local first = vim.diagnostic.get(buffer)[1]
step("at the missing `~`", first ~= nil and first.lnum == 0 and first.col == 36, first and (first.lnum .. ":" .. first.col))
step("its message", first ~= nil and first.message:find("expected") ~= nil, first and first.message:gsub("\n", " / "))

local ask = at(0, 36)
ask.range = { start = ask.position, ["end"] = ask.position }
ask.context = { diagnostics = {} }
local fixes = request("textDocument/codeAction", ask)
step("one fix", fixes ~= nil and #fixes == 1, fixes and fixes[1] and fixes[1].title)
if fixes and fixes[1] then
  vim.lsp.util.apply_workspace_edit(fixes[1].edit, "utf-16")
end
step("mended", wait(function() return #vim.diagnostic.get(buffer) == 0 end), tostring(#vim.diagnostic.get(buffer)))

local place = request("textDocument/definition", at(0, 16))
step("definition", place ~= nil and place[1] ~= nil and place[1].range.start.line == 2)
local shown = request("textDocument/hover", at(0, 16))
step("hover", shown ~= nil and shown.contents.value:find("One of them.", 1, true) ~= nil)

local params = at(0, 16)
params.newName = "entry"
local edit = request("textDocument/rename", params)
step("rename answered", edit ~= nil)
if edit then
  vim.lsp.util.apply_workspace_edit(edit, "utf-16")
end
step("renamed", lines():find("entry={ASCII_ALPHA+}", 1, true) ~= nil and lines():find("item", 1, true) == nil, lines())
params.newName = "list"
local _, refused = request("textDocument/rename", params)
step("a taken name is refused", refused ~= nil, refused and refused.message)

local edits = request("textDocument/formatting", {
  textDocument = { uri = vim.uri_from_bufnr(buffer) },
  options = { tabSize = 4, insertSpaces = true },
})
step("formatting answered", edits ~= nil, edits and (#edits .. " edits"))
if edits then
  vim.lsp.util.apply_text_edits(edits, buffer, "utf-16")
end
step("formatted", lines():find("entry = { ASCII_ALPHA+ }", 1, true) ~= nil, lines())
step("no diagnostics", wait(function() return #vim.diagnostic.get(buffer) == 0 end))

vim.lsp.stop_client(id)
step("stopped", wait(function() return vim.lsp.client_is_stopped(id) end))
vim.cmd(failed and "cquit!" or "qall!")
