-- The language server of chipbench in Neovim (0.7 or later):
--
--     require('chipbench').setup()
--
-- Options: `cmd` (by default { 'chipbench-lsp' }), `settings` (profile, quirks, rate, tape, seed, every, program) and `on_attach`.
--
-- The debug adapter, for the plugin nvim-dap:
--
--     require('chipbench').setup_debugger()
--
-- Options: `cmd` (by default { 'chipbench-dap' }) and `settings` (those of a launch, docs/DEBUGGER.md).

local M = {}

local RUN_TO = 'chipbench.runTo'
local PROVE = 'chipbench.prove'
local clients = {}

-- Shows a text in a window of its own, which `q` closes.
local function show(text)
  local lines = vim.split(text, '\n')
  local buffer = vim.api.nvim_create_buf(false, true)
  vim.api.nvim_buf_set_lines(buffer, 0, -1, false, lines)
  vim.bo[buffer].bufhidden = 'wipe'
  vim.bo[buffer].modifiable = false
  vim.cmd('botright ' .. math.min(#lines, math.floor(vim.o.lines / 2)) .. 'split')
  vim.api.nvim_win_set_buf(0, buffer)
  vim.api.nvim_buf_set_keymap(buffer, 'n', 'q', '<Cmd>close<CR>', { silent = true })
end

local function carry_out(command, buffer, line, done)
  local params = { command = command, arguments = { vim.uri_from_bufnr(buffer), line } }
  vim.lsp.buf_request(buffer, 'workspace/executeCommand', params, function(failure, result)
    if failure then
      vim.notify('chipbench: ' .. failure.message, vim.log.levels.WARN)
    elseif result then
      (done or show)(result.text)
    end
  end)
end

-- Asks for the machine at the first step on a line (counted from 0), and hands the result to `done`.
function M.run_to(buffer, line, done)
  carry_out(RUN_TO, buffer, line, done)
end

-- Asks for the answer to the property of a line (counted from 0), and hands it to `done`; the lens of the line then has it.
function M.prove(buffer, line, done)
  carry_out(PROVE, buffer, line, function(text)
    vim.lsp.codelens.refresh()
    local show_it = done or function(answer) vim.notify('chipbench: ' .. answer) end
    show_it(text)
  end)
end

local function run_to_cursor()
  M.run_to(vim.api.nvim_get_current_buf(), vim.api.nvim_win_get_cursor(0)[1] - 1)
end

local hints = vim.api.nvim_create_namespace('chipbench_hints')

-- Shows the address and the bytes of each line after it, in a Neovim that has no inlay hints of its own.
local function draw_hints(buffer)
  local last = vim.api.nvim_buf_line_count(buffer)
  local params = {
    textDocument = { uri = vim.uri_from_bufnr(buffer) },
    range = { start = { line = 0, character = 0 }, ['end'] = { line = last, character = 0 } },
  }
  vim.lsp.buf_request(buffer, 'textDocument/inlayHint', params, function(failure, found)
    if failure or not found or not vim.b[buffer].chipbench_hints then
      return
    end
    vim.api.nvim_buf_clear_namespace(buffer, hints, 0, -1)
    for _, hint in ipairs(found) do
      if hint.position.line < vim.api.nvim_buf_line_count(buffer) then
        local text = { { '  ' .. hint.label, 'NonText' } }
        vim.api.nvim_buf_set_extmark(buffer, hints, hint.position.line, 0, { virt_text = text })
      end
    end
  end)
end

-- Switches the hints of a buffer on or off.
function M.toggle_hints(buffer)
  if vim.lsp.inlay_hint then
    return vim.lsp.inlay_hint.enable(not vim.lsp.inlay_hint.is_enabled({ bufnr = buffer }), { bufnr = buffer })
  end
  vim.b[buffer].chipbench_hints = not vim.b[buffer].chipbench_hints
  if vim.b[buffer].chipbench_hints then
    draw_hints(buffer)
  else
    vim.api.nvim_buf_clear_namespace(buffer, hints, 0, -1)
  end
end

local function add_commands(buffer)
  vim.api.nvim_buf_create_user_command(buffer, 'ChipbenchRunToCursor', run_to_cursor, {})
  vim.api.nvim_buf_create_user_command(buffer, 'ChipbenchHints', function()
    M.toggle_hints(buffer)
  end, {})
  local group = vim.api.nvim_create_augroup('chipbench_hints', { clear = false })
  vim.api.nvim_clear_autocmds({ group = group, buffer = buffer })
  vim.api.nvim_create_autocmd({ 'TextChanged', 'InsertLeave' }, {
    group = group,
    buffer = buffer,
    callback = function()
      if vim.b[buffer].chipbench_hints then
        draw_hints(buffer)
      end
    end,
  })
end

local function configure(options)
  local init = vim.tbl_extend('force', { showsRuns = true }, options.settings or {})
  return {
    name = 'chipbench',
    cmd = options.cmd or { 'chipbench-lsp' },
    init_options = init,
    root_dir = options.root_dir or vim.fn.getcwd(),
    on_attach = function(client, buffer)
      -- later Neovims set it themselves
      if vim.bo[buffer].omnifunc == '' then
        vim.bo[buffer].omnifunc = 'v:lua.vim.lsp.omnifunc'
      end
      if options.on_attach then
        options.on_attach(client, buffer)
      end
      -- they may have been switched on before the server was ready
      if vim.b[buffer].chipbench_hints then
        draw_hints(buffer)
      end
    end,
    on_exit = function(_, _, id)
      for key, client in pairs(clients) do
        if client == id then
          clients[key] = nil
        end
      end
    end,
  }
end

-- Attaches a buffer to the server, which is started where it isn't running.
local function attach(options, buffer)
  if vim.lsp.start then
    return vim.lsp.start(configure(options), { bufnr = buffer })
  end
  local key = table.concat(options.cmd or { 'chipbench-lsp' }, ' ')
  clients[key] = clients[key] or vim.lsp.start_client(configure(options))
  if clients[key] then
    vim.lsp.buf_attach_client(buffer, clients[key])
  end
  return clients[key]
end

function M.setup(options)
  options = options or {}
  vim.lsp.commands[RUN_TO] = function(command)
    M.run_to(vim.uri_to_bufnr(command.arguments[1]), command.arguments[2])
  end
  vim.lsp.commands[PROVE] = function(command)
    M.prove(vim.uri_to_bufnr(command.arguments[1]), command.arguments[2])
  end
  vim.api.nvim_create_autocmd('FileType', {
    pattern = 'chip8',
    group = vim.api.nvim_create_augroup('chipbench', { clear = true }),
    callback = function(event)
      attach(options, event.buf)
      add_commands(event.buf)
    end,
  })
end

-- Tells nvim-dap of the adapter, and of a launch of the file in the window.
function M.setup_debugger(options)
  options = options or {}
  local command = options.cmd or { 'chipbench-dap' }
  local dap = require('dap')
  dap.adapters.chipbench = { type = 'executable', command = command[1], args = vim.list_slice(command, 2) }
  local launch = { type = 'chipbench', request = 'launch', name = 'Debug this file', source = '${file}', cwd = '${fileDirname}' }
  dap.configurations.chip8 = dap.configurations.chip8 or {}
  table.insert(dap.configurations.chip8, vim.tbl_extend('force', launch, options.settings or {}))
end

return M
