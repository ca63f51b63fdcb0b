" Vim syntax file for protocols in BSPL and their parts, as docs/LANGUAGE.md has them.

if exists("b:current_syntax")
  finish
endif

syn case match
syn sync fromstart

" A byte at which no token begins. Of two items that match at one place the later one counts, so this one is the first.
syn match bsplError /\S/
syn match bsplName /\v\h%(\w|-[[:alnum:]]@=|#[1-9]\d*\.\h@=)*/
syn match bsplProtocol /\v\h%(\w|-[[:alnum:]]@=|#[1-9]\d*\.\h@=)*%(\s*[{(])@=/
syn match bsplMessage /\v\h%(\w|-[[:alnum:]]@=|#[1-9]\d*\.\h@=)*%(\s*\[)@=/
syn match bsplDeclaration /\v%(roles=|parameters=|private)%(\w|-[[:alnum:]]|#[1-9]\d*\.\h)@!/
syn match bsplAdornment /\v%(in|out|nil|any|opt)%(\w|-[[:alnum:]]|#[1-9]\d*\.\h)@!/
syn match bsplKey /\vkey%(\w|-[[:alnum:]]|#[1-9]\d*\.\h)@!/
syn match bsplPunctuation /[][{}(),:]/
syn match bsplArrow /->\|↦/
syn match bsplComment "//.*$"

" A rule: its words, and the names that come after some of them.
syn match bsplRuleError /\S/ contained
syn match bsplRulePunctuation /[][{}(),:]/ contained
syn match bsplRuleArrow /->\|↦/ contained
syn match bsplRuleName /\v\h%(\w|-[[:alnum:]]@=|#[1-9]\d*\.\h@=)*/ contained
syn match bsplRuleFirst /\v\h%(\w|-[[:alnum:]]@=|#[1-9]\d*\.\h@=)*/ contained nextgroup=bsplRuleLast skipwhite
syn match bsplRuleLast /\v\h%(\w|-[[:alnum:]]@=|#[1-9]\d*\.\h@=)*/ contained
syn match bsplRuleWord /\v%(rest|not|and|or|before|after)%(\w|-[[:alnum:]]|#[1-9]\d*\.\h)@!/ contained
syn match bsplRuleWord /\v%(sent|received|bound|can|but)%(\w|-[[:alnum:]]|#[1-9]\d*\.\h)@!/ contained nextgroup=bsplRuleLast skipwhite
syn match bsplRuleWord /\vknows%(\w|-[[:alnum:]]|#[1-9]\d*\.\h)@!/ contained nextgroup=bsplRuleFirst skipwhite
syn match bsplRuleComment "//.*$" contained
syn match bsplRuleWord /\v%(^[ \t]*)@<=\/\/\?%([ \t]*%(never|some)%(\w|-[[:alnum:]]|#[1-9]\d*\.\h)@!)=/ contained
syn region bsplRule start=/\v^[ \t]*%(\/\/\?)@=/ end=/$/ oneline
      \ contains=bsplRuleError,bsplRulePunctuation,bsplRuleArrow,bsplRuleName,bsplRuleWord,bsplRuleComment

" The parts: each goes on to the end of the text.
syn match bsplPartError /\S/ contained
syn match bsplPartName /\v\h%(\w|-[[:alnum:]]@=|#[1-9]\d*\.\h@=)*/ contained
syn match bsplNumber /\v%(0|[1-9]\d*)%(\s|$)@=/ contained
syn match bsplText /\v"%([!#-[\]-~]|\\[0-9a-f]{2})*"/ contained
syn cluster bsplFields contains=bsplPartError,bsplPartName,bsplNumber,bsplText

syn match bsplAgentsWord /\v^\s*%(keys|key|seed|loss|repeat|order|decline|value)%(\s|$)@=/ contained
syn match bsplAgentsWord /\v%(^\s*decline\s+\S+\s+)@<=every%(\s|$)@=/ contained
syn match bsplAgentsComment "^\s*//.*$" contained
syn region bsplAgents matchgroup=bsplPart start=/^%% agents\r\=$/ end=/\%$/
      \ contains=@bsplFields,bsplAgentsWord,bsplAgentsComment

syn match bsplRunWord /\v^%(run|send|receive|end)%(\s|$)@=/ contained
syn match bsplEquals /=/ contained
syn region bsplRun matchgroup=bsplPart start=/^%% run\r\=$/ end=/\%$/
      \ contains=@bsplFields,bsplRunWord,bsplEquals

syn match bsplHistoriesWord /\v^%(histories|role|send|receive|end)%(\s|$)@=/ contained
syn region bsplHistories matchgroup=bsplPart start=/^%% histories\r\=$/ end=/\%$/
      \ contains=@bsplFields,bsplHistoriesWord,bsplEquals

syn match bsplWireWord /^role \@=/ contained
syn match bsplWireName /\(^role \)\@<=\S\+$/ contained
syn region bsplWire matchgroup=bsplPart start=/^%% wire\r\=$/ end=/\%$/ contains=bsplWireWord,bsplWireName

syn match bsplNumber /-[1-9]\@=/ contained
syn match bsplLogWord /\v^%(log|step|drop|end)%(\s|$)@=/ contained
syn match bsplLogWord /\v%(^log \d+ )@<=%(safety|liveness|dead|ask)%(\s|$)@=/ contained
syn match bsplLogQuestion /\v%(^log \d+ ask )@<=.*$/ contained
syn region bsplLog matchgroup=bsplPart start=/^%% log\r\=$/ end=/\%$/
      \ contains=@bsplFields,bsplLogWord,bsplLogQuestion

hi def link bsplError Error
hi def link bsplPartError Error
hi def link bsplName Identifier
hi def link bsplPartName Identifier
hi def link bsplProtocol Structure
hi def link bsplMessage Function
hi def link bsplDeclaration Keyword
hi def link bsplAdornment StorageClass
hi def link bsplKey Special
hi def link bsplPunctuation Delimiter
hi def link bsplArrow Operator
hi def link bsplEquals Operator
hi def link bsplComment Comment
hi def link bsplAgentsComment Comment
hi def link bsplRuleComment Comment
hi def link bsplRuleError Error
hi def link bsplRulePunctuation Delimiter
hi def link bsplRuleArrow Operator
hi def link bsplRuleName Identifier
hi def link bsplRuleFirst Identifier
hi def link bsplRuleLast Identifier
hi def link bsplRuleWord Statement
hi def link bsplPart PreProc
hi def link bsplAgentsWord Statement
hi def link bsplRunWord Statement
hi def link bsplHistoriesWord Statement
hi def link bsplWireWord Statement
hi def link bsplWireName Identifier
hi def link bsplLogWord Statement
hi def link bsplLogQuestion Identifier
hi def link bsplNumber Number
hi def link bsplText String

let b:current_syntax = "bspl"
