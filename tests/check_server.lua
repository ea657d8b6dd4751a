-- A session of Neovim with the language server: it writes what the server answers as JSON, by the names of the questions.
-- ASKED names a JSON file: the command of the server, or none where a configuration starts it, the source, and for each
-- question its method, line and column.
local asked = vim.fn.json_decode(vim.fn.readfile(os.getenv('ASKED')))
local seconds = 1000

local function diagnostics()
  local found = {}
  for _, one in ipairs(vim.diagnostic.get(0)) do
    table.insert(found, { one.lnum, one.col, one.end_col, one.severity, one.message })
  end
  return found
end

local heard = 0
local handler = vim.lsp.handlers['textDocument/publishDiagnostics']
vim.lsp.handlers['textDocument/publishDiagnostics'] = function(...)
  heard = heard + 1
  return handler(...)
end
vim.cmd('edit ' .. asked.source)
local id
if asked.command then
  id = vim.lsp.start_client({ cmd = asked.command, root_dir = vim.fn.getcwd(), init_options = asked.options })
  vim.lsp.buf_attach_client(0, id)
else
  for number, _ in pairs(vim.lsp.buf_get_clients(0)) do id = number end
end
vim.wait(60 * seconds, function() return heard > 0 end)
local answers = { opened = diagnostics() }

for _, question in ipairs(asked.questions) do
  local params = {
    textDocument = vim.lsp.util.make_text_document_params(0),
    position = { line = question.line, character = question.column },
    context = { includeDeclaration = true },
  }
  local done = vim.lsp.buf_request_sync(0, question.method, params, 60 * seconds)
  answers[question.name] = done and done[id] and done[id].result or vim.NIL
end

for _, edit in ipairs(asked.edits) do
  local before = heard
  vim.api.nvim_buf_set_text(0, edit.line, edit.from, edit.line, edit.to, { edit.text })
  vim.wait(60 * seconds, function() return heard > before end)
  answers[edit.name] = diagnostics()
end

if asked.layout then
  vim.lsp.buf.formatting_sync(nil, 60 * seconds)
  answers.layout = vim.api.nvim_buf_get_lines(0, 0, -1, false)
end
if asked.make then
  vim.cmd('compiler silc | silent make!')
  answers.make = {}
  for _, one in ipairs(vim.fn.getqflist()) do
    table.insert(answers.make, { one.lnum, one.col, one.type, one.text })
  end
end

vim.fn.writefile({ vim.fn.json_encode(answers) }, os.getenv('ANSWERS'))
if id then vim.lsp.stop_client(id) end
vim.cmd('qall!')
