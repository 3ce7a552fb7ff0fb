-- Opens a program with an error in Neovim, with titan_lsp as its server, which titan_lsp.lua starts:
--
--     TITAN_LSP=PROGRAM nvim --headless -u NONE -c 'luafile test_lsp.lua'
--
-- It waits for the diagnostic, asks for the hover, applies the fix, sees the diagnostic go, asks where a variable is declared, types another
-- error, and stops the server. The status is 1 if something fails.
local path = vim.fn.tempname() .. '.ti'
local lines = {
  'class Main {', '  public static single void main(String[] args) {', '    int rounds = broadcast 3 from 0;',
  '    for (int single round = 0; round < rounds; round++) { Ti.barrier(); }', '  }', '}',
}
local function say(text) io.stdout:write(text .. '\n') end
-- A condition that doesn't hold ends the test.
local function must(holds, text)
  if holds then return end
  say('FAILED ' .. text)
  os.exit(1)
end
local function equal(found, wanted, text) must(vim.deep_equal(found, wanted), text .. ': ' .. vim.inspect(found)) end

local function test()
  vim.fn.writefile(lines, path)
  vim.g.titan_lsp = os.getenv('TITAN_LSP')
  dofile(debug.getinfo(1, 'S').source:sub(2):gsub('[^/]*$', '') .. 'titan_lsp.lua')
  vim.cmd('edit ' .. path)
  local buffer = vim.api.nvim_get_current_buf()
  local function diagnostics() return vim.diagnostic.get(buffer) end
  local function wait(holds, text) must(vim.wait(10000, holds, 20), text) end

  wait(function() return #diagnostics() > 0 end, 'no diagnostic')
  local d = diagnostics()[1]
  say(('diagnostic %d:%d-%d:%d %s %s'):format(d.lnum, d.col, d.end_lnum, d.end_col, d.source, d.message))
  equal({ d.lnum, d.col, d.end_lnum, d.end_col }, { 3, 4, 3, 7 }, 'the range')
  equal(d.message, 'a loop with global effects needs a single condition', 'the message')
  local clients = vim.lsp.get_active_clients()
  equal(#clients, 1, 'the number of clients')
  local client = clients[1]
  local function request(method, params)
    params.textDocument = { uri = vim.uri_from_bufnr(buffer) }
    local response = client.request_sync(method, params, 5000, buffer)
    must(response and response.result, 'no result of ' .. method)
    return response.result
  end
  local hover = request('textDocument/hover', { position = { line = 3, character = 5 } })
  say('hover ' .. hover.contents.value:gsub('\n', ' '))
  must(vim.startswith(hover.contents.value, '**S2** '), 'the hover')
  local range = { start = { line = 3, character = 4 }, ['end'] = { line = 3, character = 7 } }
  local actions = request('textDocument/codeAction', { range = range, context = { diagnostics = {} } })
  equal(#actions, 1, 'the number of actions')
  say('action ' .. actions[1].title)
  vim.lsp.util.apply_workspace_edit(actions[1].edit, client.offset_encoding)
  equal(vim.api.nvim_buf_get_lines(buffer, 2, 3, false)[1], '    int single rounds = broadcast 3 from 0;', 'line 3')
  wait(function() return #diagnostics() == 0 end, 'the diagnostic stays')
  equal(#request('textDocument/documentSymbol', {}), 2, 'the number of symbols')
  local use = lines[4]:find('< rounds') + 1
  local declared = request('textDocument/definition', { position = { line = 3, character = use } })
  equal(declared.range.start, { line = 2, character = 15 }, 'the definition')
  vim.api.nvim_buf_set_lines(buffer, 2, 3, false, { '    int single rounds = Ti.thisProc();' })
  wait(function() return #diagnostics() > 0 end, 'no second diagnostic')
  say('typed: ' .. diagnostics()[1].message)
  vim.lsp.stop_client(client.id)
  wait(function() return vim.lsp.client_is_stopped(client.id) end, "the server doesn't stop")
  say('stopped')
end

local passed, text = xpcall(test, debug.traceback)
must(passed, tostring(text))
vim.cmd('qall!')
