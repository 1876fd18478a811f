// The policy of an embassy: four sections whose papers are kept apart, a registry, and one trusted subject.
//
//     jsonnet examples/embassy.jsonnet > embassy.json
//     bin/mls check embassy.json
//
// Jsonnet (https://jsonnet.org, Debian's package jsonnet) is JSON with names, functions and comments. A start file is
// what it prints. docs/POLICY-AUTHORING.md has the loop: edit, compile, check, lint, compare, change over.

// Labels.

local security = {
  // Unclassified, restricted, confidential, secret.
  levels: ['U', 'R', 'C', 'S'],
  // A category for each section: political, consular, defence, trade.
  categories: ['POL', 'CON', 'DEF', 'TRD'],
};
local integrity = {
  // What comes from outside, what staff write, what the registry keeps. Nobody may use what is trusted less than he is.
  levels: ['outside', 'staff', 'record'],
  categories: [],
};
local everything = 'S:' + std.join(',', security.categories);

// What each line of the policy is made of.

local subject(name, maximum, current, integrity='staff', trusted=false) =
  { name: name, maximum: maximum, current: current, integrity: integrity, trusted: trusted };
local object(name, parent, security, integrity='staff') =
  { name: name, parent: parent, security: security, integrity: integrity };
// The permissions of several subjects for several objects, in the same modes.
local permit(subjects, objects, modes) =
  [{ subject: s, object: o, modes: modes } for s in subjects for o in objects];

// A section: its head is cleared to secret, its officer to confidential; its clerk has no category and works on what is
// unclassified or restricted. Who reads mail from outside is trusted as little as the mail.
local section(name, category) = {
  local at(level) = level + ':' + category,
  local its(part) = name + '-' + part,
  local head = its('head'),
  local officer = its('officer'),
  local clerk = its('clerk'),

  subjects: [
    subject(head, at('S'), at('C')),
    subject(officer, at('C'), at('R')),
    subject(clerk, at('R'), 'U', 'outside'),
  ],
  objects: [
    object(name, 'embassy', at('R'), 'record'),
    object(its('mail'), name, at('R'), 'outside'),
    object(its('notes'), name, at('R')),
    object(its('release'), name, at('R')),
    object(its('contacts'), name, at('C')),
    object(its('drafts'), name, at('C')),
    object(its('cables-in'), name, at('C'), 'record'),
    object(its('cables-out'), name, at('C')),
    object(its('record'), name, at('C'), 'record'),
    object(its('secret'), name, at('S'), 'record'),
    object(its('secret-drafts'), its('secret'), at('S')),
    object(its('secret-record'), its('secret'), at('S'), 'record'),
  ],
  matrix:
    // The clerk files the mail, and sees nothing that the section wrote.
    permit([clerk], [its('mail')], ['append']) +
    permit([clerk], ['mail-in'], ['read']) +
    // Notes and papers for release are at the officer's level; drafts and cables at the head's.
    permit([officer, head], [its('notes'), its('release')], ['read', 'write']) +
    permit([officer, head], [its('contacts'), its('drafts'), its('cables-out')], ['read', 'append', 'write']) +
    permit([officer, head], [its('cables-in'), its('record')], ['read']) +
    permit([head], [its('secret-drafts')], ['read', 'append', 'write']) +
    permit([head], [its('secret-record')], ['read']) +
    // The registry keeps the records, from cables as they came, and grants rights to what stands in the folders.
    permit(['archivist'], [name, its('secret')], ['write']) +
    permit(['archivist'], [its('cables-in')], ['read']) +
    permit(['archivist'], [its('record'), its('secret-record')], ['read', 'append', 'write']) +
    permit(['cipher'], [its('cables-in')], ['append']) +
    // Who is at the top reads what sections have.
    permit(['ambassador', 'deputy'], [its('notes'), its('drafts'), its('record'), its('secret-record')], ['read']) +
    // The one who may lower labels looks at what is for release, and at nothing else of a section.
    permit(['registrar'], [its('release')], ['read']),
};
local sections = [
  section('pol', 'POL'),
  section('con', 'CON'),
  section('def', 'DEF'),
  section('trd', 'TRD'),
];
local of_sections(part) = std.flattenArrays([it[part] for it in sections]);
local heads = ['pol-head', 'con-head', 'def-head', 'trd-head'];
local officers = ['pol-officer', 'con-officer', 'def-officer', 'trd-officer'];

// The house as a whole.

local house = {
  subjects: [
    subject('ambassador', everything, 'C:POL,CON,DEF,TRD'),
    subject('deputy', everything, 'C:POL,CON,DEF,TRD'),
    // Grants rights to what stands below the root, at the lowest label, and reads no paper.
    subject('sec', 'U', 'U', 'record'),
    // The only trusted subject: it may relabel any object, up and down, and copy down what it reads. Its maximum bounds
    // what it reads, and is as low as its task allows.
    subject('registrar', 'R:POL,CON,DEF,TRD', 'U', trusted=true),
    subject('archivist', everything, 'C:POL,CON,DEF,TRD', 'record'),
    // Writes cables as they arrive, upwards; it needs no clearance for what it cannot read.
    subject('cipher', 'R', 'R', 'record'),
    subject('porter', 'U', 'U', 'outside'),
    subject('kiosk', 'U', 'U', 'outside'),
  ],
  objects: [
    object('embassy', null, 'U', 'record'),
    object('phonebook', 'embassy', 'U', 'record'),
    object('notices', 'embassy', 'U'),
    object('visa-forms', 'embassy', 'U', 'outside'),
    object('visa-rules', 'embassy', 'U', 'record'),
    object('mail-in', 'embassy', 'U', 'outside'),
    object('mail-out', 'embassy', 'U'),
    object('rota', 'embassy', 'R'),
    object('registry', 'embassy', 'R', 'record'),
    object('finding-aid', 'registry', 'R', 'record'),
    object('archive', 'registry', everything, 'record'),
    object('minutes', 'registry', 'C:POL,CON,DEF,TRD'),
  ],
  matrix:
    permit(['sec'], ['embassy', 'phonebook', 'visa-rules'], ['read', 'write']) +
    permit(['porter'], ['mail-in'], ['read', 'write']) +
    permit(['kiosk'], ['visa-forms'], ['append']) +
    permit(['kiosk', 'porter', 'con-clerk'], ['visa-rules', 'phonebook', 'notices'], ['read']) +
    permit(['con-clerk'], ['visa-forms'], ['read', 'append']) +
    permit(officers + heads, ['phonebook', 'notices', 'rota'], ['read']) +
    permit(['deputy'], ['rota', 'notices', 'mail-out'], ['read', 'write']) +
    permit(['ambassador', 'deputy'], ['minutes'], ['read', 'write']) +
    permit(heads, ['minutes'], ['append']) +
    permit(['ambassador', 'archivist'], ['archive'], ['read']) +
    permit(['archivist'], ['archive'], ['append']) +
    permit(['archivist'], ['registry', 'finding-aid'], ['read', 'write']) +
    permit(['registrar'], ['mail-out'], ['append']),
};

// The start file.

{
  security: security,
  integrity: integrity,
  subjects: of_sections('subjects') + house.subjects,
  // The root comes first.
  objects: house.objects + of_sections('objects'),
  matrix: of_sections('matrix') + house.matrix,
}
