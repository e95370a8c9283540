-- What Neovim shows of examples/porter.sbl in the folder ROOM: a line for each trial, with what it saw. It ends whatever happens.
local room, top = vim.env.ROOM, vim.env.TOP
local out = io.open(room .. '/seen', 'w')
local function say(name, value) out:write(name, ': ', (tostring(value):gsub('\n', ' ')), '\n') out:flush() end
-- (`vim.wait` looks after each event, so nothing may be asked of the server there)
local function until_so(what)
  for _ = 1, 150 do
    vim.cmd('doautocmd CursorHold')
    if vim.wait(200, what, 20) then return true end
  end
  return false
end
local function lens(pattern)
  return until_so(function()
    for _, one in ipairs(vim.lsp.codelens.get(0) or {}) do if one.command and one.command.title:match(pattern) then return true end end
    return false
  end)
end
local function hints()
  local found = {}
  for _, mark in ipairs(vim.api.nvim_buf_get_extmarks(0, vim.api.nvim_get_namespaces().snowbench, 0, -1, { details = true })) do
    table.insert(found, mark[4].virt_text[1][1])
  end
  return found
end
-- A line of the report, if its window is there.
local function report_line(number)
  for _, window in ipairs(vim.api.nvim_tabpage_list_wins(0)) do
    local buffer = vim.api.nvim_win_get_buf(window)
    if vim.bo[buffer].buftype == 'nofile' then return vim.api.nvim_buf_get_lines(buffer, number - 1, number, false)[1] end
  end
end
local function trial()
  vim.g.snowbench = room .. '/snowbench'
  vim.cmd('source ' .. top .. '/client/editors/nvim/snowbench.lua')
  vim.cmd('filetype plugin on | syntax on')
  vim.cmd('edit ' .. room .. '/porter.sbl')
  say('syntax', vim.b.current_syntax)
  say('lenses', lens('^8 words, 8 classes'))
  local line = vim.api.nvim_buf_get_lines(0, 27, 28, false)[1]
  vim.api.nvim_buf_set_lines(0, 27, 28, false, { (line:gsub('%(<%-.ss.%)', '(nowhere)')) })
  say('fault', until_so(function() return #vim.diagnostic.get(0) > 0 end) and vim.diagnostic.get(0)[1].message)
  vim.api.nvim_buf_set_lines(0, 27, 28, false, { (line:gsub("'sses'", "'sses' 'sses'")) })
  say('two', until_so(function() return vim.diagnostic.get(0)[1].message:match('twice') end) and 'true')
  vim.api.nvim_win_set_cursor(0, { 28, 0 })
  local titles
  vim.ui.select = function(actions) titles = vim.tbl_map(function(action) return action[2].title end, actions) end
  vim.lsp.buf.code_action()
  say('fixes', vim.wait(20000, function() return titles end, 20) and titles[1])
  vim.api.nvim_buf_set_lines(0, 27, 28, false, { (line:gsub('%(<%-.ss.%)', '(delete)')) })
  say('corrected', until_so(function() return #vim.diagnostic.get(0) == 0 end))
  say('changed', lens('^1 word changed since the mark'))
  vim.fn.search('do Step_1a')
  vim.cmd('normal! w')
  local before = vim.fn.line('.')
  vim.lsp.buf.definition()
  say('definition', until_so(function() return vim.fn.line('.') ~= before end) and vim.fn.getline('.'))
  local script = vim.api.nvim_get_current_win()
  vim.cmd('SnowWhy caresses')
  say('why', until_so(function() return report_line(1) end) and report_line(1))
  vim.cmd('SnowWhy ponies')
  say('another', until_so(function() return report_line(1):match("'ies'") end) and report_line(1))
  say('windows', #vim.api.nvim_tabpage_list_wins(0) .. ', in the script: ' .. tostring(vim.api.nvim_get_current_win() == script))
  vim.cmd('wincmd j')
  vim.cmd('SnowWhy caresses')
  say('from the report', until_so(function() return report_line(1):match("'sses'") end) and #vim.api.nvim_tabpage_list_wins(0))
  say('in the report', vim.bo.buftype)
  vim.cmd('close')
  vim.api.nvim_set_current_win(script)
  vim.cmd('SnowWhy caresses')
  until_so(function() return report_line(1) end)
  vim.cmd('close | SnowWhy ponies')
  say('an only window', until_so(function() return report_line(1):match("'ies'") end) and vim.o.cmdheight)
  vim.cmd('edit ' .. room .. '/porter.sbl')
  vim.lsp.buf.rename('first')
  say('rename', until_so(function() return vim.fn.search('do first', 'nw') > 0 end))
  vim.cmd('edit! ' .. room .. '/porter.words')
  say('words', until_so(function() return #hints() == 8 end) and hints()[1])
end
local is_done, why = pcall(trial)
if not is_done then say('failed', why) end
out:close()
vim.cmd('qall!')
