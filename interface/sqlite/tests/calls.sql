-- Each function once, of documents that are in DER, in BER and refused, and of wrong arguments, with files of examples/
-- in the folder where it runs: for valgrind, under which nothing is compared.
create table files(kind text, document blob);
insert into files values ('key', readfile('smallest.der')), ('key', readfile('long-lengths.der')),
    ('key', readfile('cut-short.der')), ('request', readfile('request-indefinite.der')),
    ('package', readfile('package-indefinite.der')), ('public', x''), ('ec', zeroblob(70000)), ('key', null);
select pkder_check(kind, document), pkder_is_der(kind, document), pkder_field(kind, document) from files;
select length(pkder_explain(kind, document)), length(pkder_explain(kind, document, 'all json tls')) from files;
select pkder_explain(kind, document, 'all', 64, 2147483647) like '%' from files;
select length(pkder_normalise(kind, document)), length(pkder_show(kind, document)) from files
    where pkder_check(kind, document) not like 'fault %';
select hex(pkder_signed('signature', document)), pkder_same(kind, document, document) from files
    where kind = 'request';
select pkder_require_der(kind, document) from files;
select pkder_normalise(kind, document) from files where kind = 'ec';
select pkder_same('key', document, x'30') from files;
select pkder_check('pem', document) from files;
select pkder_check(document, 'key') from files;
select pkder_check('key', 'document');
select pkder_explain('key', document, 'all all') from files;
select pkder_show('key', document, 65, 1) from files;
create table keys(document blob not null check (pkder_require_der('key', document)));
create unique index one on keys(pkder_normalise('key', document));
insert into keys select document from files where kind = 'key' limit 1;
insert into keys select document from files where kind = 'key' limit 1;
insert into keys select document from files where kind = 'key';
