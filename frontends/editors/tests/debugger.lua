-- A client of the debug adapter inside Neovim, by what `setup_debugger` tells the plugin nvim-dap, which Debian doesn't have.
-- The test does the tasks of docs/SHELL.md, forward and back. Step 22 + 8 (N - 1) is the one at which HIT is next for the Nth time.

local SCORE = {
  '; Key 4 scores. The score is in V3, and in the byte SCORE.',
  '        LD V4, 4',
  '        LD I, SCORE',
  'LOOP:   SKNP V4',
  '        CALL HIT',
  '        SE V3, 9',
  '        JP LOOP',
  '        JP SCORE',
  'HIT:    ADD V3, 1',
  '        LD V0, V3',
  '        LD [I], V0',
  '        RET',
  'SCORE:  DB 0, 0',
}

-- Starts the adapter as nvim-dap would; the result has `ask`, `event` and `close`.
local function start(adapter, wait_for)
  local stdin, stdout = vim.loop.new_pipe(), vim.loop.new_pipe()
  local client = { answers = {}, events = {}, last = 0 }
  local handle
  handle = vim.loop.spawn(adapter.command, { args = adapter.args, stdio = { stdin, stdout, nil } }, function(status)
    client.status = status
    handle:close()
  end)
  local read = ''
  stdout:read_start(function(_, piece)
    read = read .. (piece or '')
    while true do
      local length, start_at = read:match('Content%-Length: (%d+)\r\n\r\n()')
      if not length or #read < start_at + length - 1 then
        return
      end
      local message = vim.json.decode(read:sub(start_at, start_at + length - 1))
      read = read:sub(start_at + length)
      if message.type == 'event' then
        table.insert(client.events, message)
      else
        client.answers[message.request_seq] = message
      end
    end
  end)

  function client.ask(command, arguments)
    client.last = client.last + 1
    local request = client.last
    local body = vim.json.encode({ seq = request, type = 'request', command = command, arguments = arguments or vim.empty_dict() })
    stdin:write('Content-Length: ' .. #body .. '\r\n\r\n' .. body)
    wait_for('an answer to ' .. command, function()
      return client.answers[request] ~= nil
    end)
    local answer = client.answers[request]
    assert(answer.success, answer.message)
    return answer.body
  end

  function client.event(name)
    local found
    wait_for('the event ' .. name, function()
      while #client.events > 0 and not found do
        local event = table.remove(client.events, 1)
        found = event.event == name and event or nil
      end
      return found ~= nil
    end)
    return found.body
  end

  function client.close()
    client.ask('disconnect')
    stdin:close()
    wait_for('the end of the adapter', function()
      return client.status ~= nil
    end)
    return client.status
  end
  return client
end

return function(test, same, wait_for)
  local dap = { adapters = {}, configurations = {} }
  package.loaded.dap = dap
  local keys = vim.fn.tempname()
  vim.fn.writefile({ '20 4 down' }, keys)
  require('chipbench').setup_debugger({ cmd = { vim.env.CHIPBENCH_DAP, '--program', vim.env.CHIPBENCH }, settings = { keys = keys } })

  -- Debugs the file in the window, up to its start.
  local function debug()
    local place = vim.fn.tempname() .. '.ch8asm'
    vim.fn.writefile(SCORE, place)
    local client = start(dap.adapters.chipbench, wait_for)
    client.ask('initialize', { adapterID = 'chipbench' })
    local launch = vim.deepcopy(dap.configurations.chip8[1])
    launch.source, launch.cwd = place, vim.fn.fnamemodify(place, ':h')
    client.ask('launch', launch)
    client.event('initialized')
    client.ask('configurationDone')
    client.event('stopped')
    client.place = place
    function client.go(command, more)
      client.ask(command, vim.tbl_extend('force', { threadId = 1 }, more or {}))
      return client.event('stopped').reason
    end
    function client.at()
      local frame = client.ask('stackTrace', { threadId = 1 }).stackFrames[1]
      return { tonumber(client.ask('evaluate', { expression = 'STEP' }).result:match('%d+')), frame.line }
    end
    function client.type(text)
      return client.ask('evaluate', { expression = text, context = 'repl' }).result
    end
    function client.stop_at(points)
      client.ask('setBreakpoints', { source = { path = place }, breakpoints = points })
    end
    return client
  end

  test('debugging: what nvim-dap is told', function()
    same({ dap.adapters.chipbench.type, dap.configurations.chip8[1].source }, { 'executable', '${file}' })
  end)

  test('debugging: breakpoints, forward and back', function()
    local client = debug()
    client.stop_at({ { line = 9, condition = 'V3 = 2' } })
    same({ client.go('continue'), client.at() }, { 'breakpoint', { 38, 9 } })
    client.go('stepOut')
    same(client.at(), { 42, 6 })
    client.go('stepBack')
    same(client.at(), { 38, 9 })
    client.stop_at({})
    client.go('stepBack')
    same(client.at(), { 37, 5 })
    client.go('next')
    same(client.at(), { 42, 6 })
    client.ask('setDataBreakpoints', { breakpoints = { { dataId = 'V3', condition = 'V3 = 5' } } })
    same({ client.go('continue'), client.at() }, { 'data breakpoint', { 55, 10 } })
    client.ask('setDataBreakpoints', { breakpoints = { { dataId = '[SCORE]' } } })
    same({ client.go('continue'), client.at() }, { 'data breakpoint', { 57, 12 } })
    same({ client.go('reverseContinue'), client.at() }, { 'data breakpoint', { 56, 11 } })
    same(client.close(), 0)
  end)

  test('debugging: the crash, and what led to it', function()
    local client = debug()
    same({ client.go('continue'), client.at() }, { 'exception', { 93, 13 } })
    same(client.ask('exceptionInfo', { threadId = 1 }).exceptionId, 'S2')
    same(client.type('who [SCORE]'):match('08 %-> 09 by step 88') ~= nil, true)
    client.go('stepBack')
    client.go('stepBack')
    same(client.at(), { 91, 8 })
    client.ask('setFunctionBreakpoints', { breakpoints = { { name = 'HIT' } } })
    same({ client.go('reverseContinue'), client.at() }, { 'function breakpoint', { 86, 9 } })
    local frames = client.ask('stackTrace', { threadId = 1 }).stackFrames
    same({ frames[1].name, frames[2].line }, { 'HIT', 5 })
    client.close()
  end)

  test('debugging: another key, and a fix that is saved', function()
    local client = debug()
    client.type('goto 60')
    client.type('release 4 at 40')
    same(client.ask('evaluate', { expression = 'V3' }).result, '3 = #03')
    vim.cmd('edit ' .. client.place)
    vim.fn.setline(9, 'HIT:    ADD V3, 2')
    vim.cmd('silent write')
    same(client.event('output').output:match('differs in V0, V3') ~= nil, true)
    same(client.ask('evaluate', { expression = 'V3' }).result, '6 = #06')
    vim.cmd('silent undo')
    vim.cmd('silent write')
    same(client.event('output').output:match('differs in V0, V3') ~= nil, true)
    same(client.ask('evaluate', { expression = 'V3' }).result, '3 = #03')
    client.close()
  end)
end
