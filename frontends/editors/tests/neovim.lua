-- The tests of the files for Neovim, run inside it: `frontends/editors/tests/neovim` starts it. Its last line is 'N passed, M failed'.

local passed, failed = 0, 0
local GAME = {
  '; A game in few lines.',
  'STEP    EQU 3',
  'START:  LD V0, 5',
  'LOOP:   ADD V0, STEP',
  '        SE V0, 20',
  '        JP LOOP',
  '        EXIT',
}

local function same(found, wanted, what)
  if not vim.deep_equal(found, wanted) then
    error((what or 'found') .. ': ' .. vim.inspect(found) .. ' and not ' .. vim.inspect(wanted), 2)
  end
end

local function wait_for(what, condition)
  if not vim.wait(60000, condition, 10) then
    error('waited in vain: ' .. what, 2)
  end
end

local function test(name, work)
  local ok, fault = xpcall(work, debug.traceback)
  if ok then
    passed = passed + 1
  else
    failed = failed + 1
    print('neovim, ' .. name .. ': ' .. fault .. '\n')
  end
end

local function shown(buffer)
  return vim.tbl_map(function(found)
    return { found.lnum, found.code }
  end, vim.diagnostic.get(buffer))
end

local function request(method, params)
  local answers = vim.lsp.buf_request_sync(0, method, params, 60000)
  local _, answer = next(answers or {})
  return answer and answer.result, answer and answer.error
end

local function at(line, character)
  vim.api.nvim_win_set_cursor(0, { line, character })
  return vim.lsp.util.make_position_params(0, 'utf-16')
end

local function edit_game(lines)
  local place = vim.fn.tempname() .. (lines and '.ch8asm' or '.asm')
  vim.fn.writefile(lines or GAME, place)
  vim.cmd('edit ' .. place)
  wait_for('the server', function()
    local clients = vim.lsp.buf_get_clients(0)
    local _, client = next(clients)
    return client ~= nil and client.initialized
  end)
  return vim.api.nvim_get_current_buf()
end

local function set_line(number, text)
  vim.api.nvim_buf_set_lines(0, number, number + 1, false, { text })
end

vim.cmd('filetype plugin indent on')
vim.cmd('syntax on')
vim.o.showmode = false
require('chipbench').setup({ cmd = { vim.env.CHIPBENCH_LSP }, settings = { program = vim.env.CHIPBENCH } })

test('the file type is found by the content', function()
  edit_game()
  same(vim.bo.filetype, 'chip8')
  local place = vim.fn.tempname() .. '.asm'
  vim.fn.writefile({ 'global _start', '_start: mov eax, 1' }, place)
  vim.cmd('edit ' .. place)
  same(vim.bo.filetype ~= 'chip8', true)
end)

test('columns', function()
  vim.cmd('enew')
  vim.bo.filetype = 'chip8'
  vim.api.nvim_buf_set_lines(0, 0, -1, false, { '  START: LD V0, 5', 'CLS', ' STEP EQU 3', '; at the edge' })
  vim.cmd('silent normal! gg=G')
  same(vim.api.nvim_buf_get_lines(0, 0, -1, false), { 'START: LD V0, 5', '        CLS', 'STEP EQU 3', '; at the edge' })
  same(vim.bo.commentstring, '; %s')
  vim.cmd('bwipeout!')
end)

test('diagnostics appear and go', function()
  local buffer = edit_game()
  set_line(3, 'LOOP:   ADD V0, NONE')
  wait_for('a fault', function()
    return #shown(buffer) == 1
  end)
  same(shown(buffer), { { 3, 'F9' } })
  vim.cmd('silent undo')
  wait_for('no fault', function()
    return #shown(buffer) == 0
  end)
end)

test('typed in insert mode, letter by letter', function()
  local buffer = edit_game()
  vim.api.nvim_feedkeys(vim.api.nvim_replace_termcodes('Go        LD V1, NONE<Esc>', true, false, true), 'tx', false)
  wait_for('a fault', function()
    return vim.deep_equal(shown(buffer), { { 7, 'F9' } })
  end)
  vim.api.nvim_feedkeys(vim.api.nvim_replace_termcodes('ciwSTEP<Esc>', true, false, true), 'tx', false)
  wait_for('no fault', function()
    return #shown(buffer) == 0
  end)
end)

test('characters of two units before an edit', function()
  local buffer = edit_game({ "DA '\240\159\152\128\195\188' ; \240\159\152\128", 'DW V', 'CLS' })
  wait_for('a fault', function()
    return #shown(buffer) == 1
  end)
  vim.api.nvim_buf_set_text(0, 0, 10, 0, 11, { "', 5" })
  wait_for('another fault', function()
    return #shown(buffer) == 2
  end)
  vim.cmd('silent undo')
  wait_for('the first fault', function()
    return #shown(buffer) == 1
  end)
end)

test('hover', function()
  edit_game()
  local found = request('textDocument/hover', at(4, 17))
  same(found.contents.value:match('%*%*STEP%*%* = 3'), '**STEP** = 3')
  vim.lsp.buf.hover()
  wait_for('a window', function()
    return #vim.api.nvim_list_wins() == 2
  end)
  vim.cmd('silent! wincmd o')
end)

test('definition', function()
  edit_game()
  at(6, 12)
  vim.lsp.buf.definition()
  wait_for('the cursor on the label', function()
    return vim.deep_equal(vim.api.nvim_win_get_cursor(0), { 4, 0 })
  end)
end)

test('references', function()
  edit_game()
  at(4, 1)
  vim.lsp.buf.references()
  wait_for('a list', function()
    return #vim.fn.getqflist() == 2
  end)
  vim.cmd('silent! wincmd o')
end)

test('rename', function()
  edit_game()
  at(6, 12)
  vim.lsp.buf.rename('AGAIN')
  wait_for('the new name', function()
    return vim.api.nvim_buf_get_lines(0, 5, 6, false)[1] == '        JP AGAIN'
  end)
  same(vim.api.nvim_buf_get_lines(0, 3, 4, false)[1], 'AGAIN:   ADD V0, STEP')
end)

test('completion', function()
  edit_game()
  vim.api.nvim_buf_set_lines(0, -1, -1, false, { '        JP LO' })
  vim.api.nvim_win_set_cursor(0, { 8, 12 })
  local function keys(text)
    return vim.api.nvim_replace_termcodes(text, true, false, true)
  end
  local timer, turns = vim.loop.new_timer(), 0
  timer:start(20, 20, vim.schedule_wrap(function()
    turns = turns + 1
    if vim.fn.pumvisible() == 1 then
      timer:stop()
      vim.api.nvim_feedkeys(keys('<C-n><C-y><Esc>'), 'n', false)
    elseif turns > 2000 then
      timer:stop()
      vim.api.nvim_feedkeys(keys('<Esc>'), 'n', false)
    end
  end))
  vim.o.completeopt = 'menuone,noinsert,noselect'
  -- with `!` the editor stays in insert mode until the timer ends it
  vim.api.nvim_feedkeys(keys('A<C-x><C-o>'), 'tx!', false)
  same(vim.api.nvim_get_current_line(), '        JP LOOP')
end)

local function actions(line)
  local params = vim.lsp.util.make_range_params(0, 'utf-16')
  params.range = { start = { line = line, character = 0 }, ['end'] = { line = line, character = 0 } }
  params.context = { diagnostics = {} }
  return request('textDocument/codeAction', params)
end

local function titles(line)
  return vim.tbl_map(function(action)
    return action.title
  end, actions(line))
end

test('a fix for a missing comma', function()
  local buffer = edit_game({ 'LD V0 5', 'CLS' })
  wait_for('a fault', function()
    return #shown(buffer) == 1
  end)
  same(titles(0), { 'Put a comma' })
  vim.lsp.util.apply_workspace_edit(actions(0)[1].edit, 'utf-16')
  same(vim.api.nvim_buf_get_lines(0, 0, 1, false), { 'LD V0, 5' })
  wait_for('no fault', function()
    return #shown(buffer) == 0
  end)
end)

test('run to a line is offered where the source runs', function()
  local buffer = edit_game()
  same(titles(5), { 'Run to line 6' })
  set_line(3, 'LOOP:   ADD V0, NONE')
  wait_for('a fault', function()
    return #shown(buffer) == 1
  end)
  same(titles(5), {})
end)

test('formatting', function()
  edit_game({ 'A:CLS', 'JP A' })
  if vim.lsp.buf.format then
    vim.lsp.buf.format({ async = false, timeout_ms = 60000 })
  else
    vim.lsp.buf.formatting_sync({}, 60000)
  end
  same(vim.api.nvim_buf_get_lines(0, 0, -1, false), { 'A:      CLS', '        JP A' })
end)

test('symbols', function()
  edit_game()
  local found = request('textDocument/documentSymbol', { textDocument = vim.lsp.util.make_text_document_params() })
  same(#found, 3)
end)

test('run to here', function()
  local buffer = edit_game()
  local text = nil
  require('chipbench').run_to(buffer, 6, function(found)
    text = found
  end)
  wait_for('the state', function()
    return text ~= nil
  end)
  same(text:match('step 15: pc is at #208'), 'step 15: pc is at #208')
  vim.lsp.codelens.refresh()
  wait_for('a lens', function()
    return #vim.lsp.codelens.get(buffer) == 2
  end)
  vim.api.nvim_win_set_cursor(0, { 4, 0 })
  vim.lsp.codelens.run()
  wait_for('a window', function()
    return #vim.api.nvim_list_wins() == 2
  end)
  vim.cmd('silent! wincmd o')
end)

test('hints', function()
  local buffer = edit_game()
  local range = { start = { line = 0, character = 0 }, ['end'] = { line = 9, character = 0 } }
  local found = request('textDocument/inlayHint', { textDocument = vim.lsp.util.make_text_document_params(), range = range })
  same(found[1].label, '0200 6005')
  if vim.lsp.inlay_hint then
    return
  end
  local namespace = vim.api.nvim_get_namespaces().chipbench_hints
  local function count()
    return #vim.api.nvim_buf_get_extmarks(buffer, namespace, 0, -1, {})
  end
  vim.cmd('ChipbenchHints')
  wait_for('five hints', function()
    return count() == 5
  end)
  vim.cmd('ChipbenchHints')
  same(count(), 0)
end)

dofile(vim.env.CHIPBENCH_TESTS .. '/debugger.lua')(test, same, wait_for)

-- Neovim itself may have left a line without its end
io.stdout:write('\n' .. passed .. ' passed, ' .. failed .. ' failed\n')
vim.cmd(failed == 0 and 'qall!' or 'cquit!')
