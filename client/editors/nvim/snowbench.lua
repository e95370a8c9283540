-- Neovim 0.7 and later:  vim.cmd('source /path/to/client/editors/nvim/snowbench.lua')
-- vim.g.snowbench = '/path/to/snowbench' and vim.g.snowbench_settings = { words = '..', mark = 'HEAD' } if need be.
local here = vim.fn.fnamemodify(debug.getinfo(1, 'S').source:sub(2), ':p:h')
local program = vim.g.snowbench or vim.fn.fnamemodify(here, ':h:h:h') .. '/snowbench'
local hints = vim.api.nvim_create_namespace('snowbench')
local client, asking = nil, {}
vim.opt.runtimepath:append(vim.fn.fnamemodify(here, ':h') .. '/vim')
vim.cmd('augroup filetypedetect | runtime! ftdetect/snowball.vim | augroup END')

-- One window has the reports: its buffer, the script of the report that it shows, and the numbers of that report and of the last request.
local report = { buffer = -1, script = -1, shown = 0, asked = 0 }
local names = { 'mark', 'changes', 'why', 'class', 'uses', 'unused', 'compare', 'differ', 'families', 'counts', 'stats' }
local add_commands

local function report_window()
  if not vim.api.nvim_buf_is_valid(report.buffer) then
    report.buffer = vim.api.nvim_create_buf(false, true)
    add_commands(report.buffer, function() return report.script end)
  end
  for _, window in ipairs(vim.api.nvim_tabpage_list_wins(0)) do
    if vim.api.nvim_win_get_buf(window) == report.buffer then return window end
  end
  local before = vim.api.nvim_get_current_win()
  vim.cmd('noautocmd botright split')
  local window = vim.api.nvim_get_current_win()
  vim.api.nvim_win_set_buf(window, report.buffer)
  vim.api.nvim_set_current_win(before)
  return window
end

-- (the cursor stays where it is, also if the answer comes late)
local function show(number, script, title, lines)
  if number < report.shown then return end
  report.shown, report.script = number, script
  local window = report_window()
  vim.api.nvim_buf_set_lines(report.buffer, 0, -1, false, lines)
  -- (of a window that is as high as the editor the command line would take what is left)
  local rows = vim.o.cmdheight
  vim.api.nvim_win_set_height(window, math.min(math.max(#lines, 1), math.max(math.floor(vim.o.lines / 3), 3)))
  vim.o.cmdheight = rows
  vim.api.nvim_win_set_option(window, 'winfixheight', true)
  vim.api.nvim_win_set_option(window, 'statusline', (title:gsub('%%', '%%%%')))
  vim.api.nvim_win_set_cursor(window, { 1, 0 })
end

local function run(script, name, argument)
  if not vim.api.nvim_buf_is_loaded(script) then return vim.notify('the script is not open', vim.log.levels.ERROR) end
  report.asked = report.asked + 1
  local number, call = report.asked, { command = 'snowbench.' .. name, arguments = { vim.uri_from_bufnr(script), argument } }
  vim.lsp.buf_request(script, 'workspace/executeCommand', call, function(failure, lines)
    if failure then return vim.notify(failure.message, vim.log.levels.ERROR) end
    if type(lines) == 'table' then show(number, script, name .. ' ' .. argument, lines) end
  end)
end

function add_commands(buffer, script_of)
  for _, name in ipairs(names) do
    local word = name == 'why' or name == 'class' or name == 'uses'
    vim.api.nvim_buf_create_user_command(buffer, 'Snow' .. name:sub(1, 1):upper() .. name:sub(2), function(it)
      run(script_of(), name, it.args ~= '' and it.args or word and vim.fn.expand('<cword>') or '')
    end, { nargs = '?' })
  end
end

-- Numbers beside strings, and stems beside words: for the lines of the window, at the ends of lines. One request at a time.
local function show_hints(buffer)
  local range = { start = { line = vim.fn.line('w0') - 1, character = 0 }, ['end'] = { line = vim.fn.line('w$'), character = 0 } }
  local asked = vim.lsp.get_client_by_id(client)
  if not asked or asking[buffer] then return end
  asking[buffer] = asked.request('textDocument/inlayHint', { textDocument = { uri = vim.uri_from_bufnr(buffer) }, range = range }, function(failure, found)
    asking[buffer] = nil
    if failure or not vim.api.nvim_buf_is_valid(buffer) then return end
    vim.api.nvim_buf_clear_namespace(buffer, hints, 0, -1)
    local rows = {}
    for _, hint in ipairs(found or {}) do
      rows[hint.position.line] = (rows[hint.position.line] and rows[hint.position.line] .. ' ' or '') .. hint.label
    end
    for line, text in pairs(rows) do
      pcall(vim.api.nvim_buf_set_extmark, buffer, hints, line, 0, { virt_text = { { text, 'Comment' } }, virt_text_pos = 'eol' })
    end
  end, buffer)
end

local function refresh(buffer)
  if vim.lsp.codelens.refresh then vim.lsp.codelens.refresh() end
  show_hints(buffer)
end

-- (not before the server is there: Neovim 0.7 asks for lenses once only)
local function attached(_, buffer)
  local events = { 'BufEnter', 'InsertLeave', 'TextChanged', 'BufWritePost', 'CursorHold' }
  vim.api.nvim_create_autocmd(events, { buffer = buffer, callback = function() refresh(buffer) end })
  vim.api.nvim_buf_call(buffer, function() refresh(buffer) end)
end

local function attach(buffer)
  if not client or not vim.lsp.get_client_by_id(client) then
    asking = {}
    client = (vim.lsp.start_client or vim.lsp.start)({
      name = 'snowbench', cmd = { program, 'lsp' }, root_dir = vim.fn.getcwd(), on_attach = attached,
      init_options = vim.g.snowbench_settings or vim.empty_dict(), flags = { debounce_text_changes = 20 },
    })
  end
  vim.lsp.buf_attach_client(buffer, client)
  vim.bo[buffer].omnifunc = 'v:lua.vim.lsp.omnifunc'
  local keys = {
    K = vim.lsp.buf.hover, gd = vim.lsp.buf.definition, gr = vim.lsp.buf.references, gR = vim.lsp.buf.rename,
    gO = vim.lsp.buf.document_symbol, ga = vim.lsp.buf.code_action, gl = vim.lsp.codelens.run,
  }
  for key, what in pairs(keys) do vim.keymap.set('n', key, what, { buffer = buffer }) end
  add_commands(buffer, function() return buffer end)
  for _, name in ipairs(names) do
    vim.lsp.commands['snowbench.' .. name] = function(call) run(vim.api.nvim_get_current_buf(), name, call.arguments[2] or '') end
  end
end

vim.api.nvim_create_autocmd('FileType', {
  pattern = { 'snowball', 'snowball-words', 'snowball-stems' }, callback = function(it) attach(it.buf) end,
})
