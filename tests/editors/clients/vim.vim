" vim -N -u NONE -i NONE -es -S vim.vim: Vim's own channel in mode lsp, to the server in SERVER, over the chart in CHART. It prints what it saw, a
" line each.
let told = []
let uri = 'file://' . $CHART
func Got(channel, message)
  if get(a:message, 'method', '') == 'textDocument/publishDiagnostics'
    call add(g:told, 'faults ' . len(a:message.params.diagnostics))
    for it in a:message.params.diagnostics
      call add(g:told, 'fault ' . (it.range.start.line + 1) . ':' . (it.range.start.character + 1) . ' ' . it.code)
    endfor
  endif
endfunc
func Ask(method, params)
  return ch_evalexpr(g:job, #{method: a:method, params: a:params}, #{timeout: 20000})
endfunc
let job = job_start(split($SERVER), #{in_mode: 'lsp', out_mode: 'lsp', err_mode: 'nl', noblock: 1, out_cb: 'Got'})
let early = Ask('textDocument/hover', #{textDocument: #{uri: uri}, position: #{line: 0, character: 0}})
call add(told, 'before initialize ' . early.error.code)
let answer = Ask('initialize', #{processId: getpid(), rootUri: v:null, capabilities: {}})
call add(told, 'connected ' . has_key(answer.result.capabilities, 'hoverProvider'))
call ch_sendexpr(job, #{method: 'initialized', params: {}})
call ch_sendexpr(job, #{method: 'textDocument/didOpen', params: #{textDocument: #{uri: uri, languageId: 'sfc-chart', version: 1, text: join(readfile($CHART), "\n") . "\n"}}})
for turn in range(400)
  if len(told) > 2 | break | endif
  sleep 50m
endfor
let answer = Ask('textDocument/documentHighlight', #{textDocument: #{uri: uri}, position: #{line: 6, character: 8}})
call add(told, 'highlights ' . join(sort(map(answer.result, 'v:val.range.start.line + 1'), 'n')))
let answer = Ask('no/such/method', {})
call add(told, 'unknown ' . answer.error.code)
let answer = Ask('shutdown', {})
call add(told, 'shut ' . has_key(answer, 'result'))
call ch_sendexpr(job, #{method: 'exit'})
for turn in range(200)
  if job_status(job) != 'run' | break | endif
  sleep 50m
endfor
call add(told, 'left ' . job_info(job).exitval)
call writefile(told, '/dev/stdout')
qa!
