-- The tables, empty, of bench/postgres.sh. A reader sees the cells whose label is among those that its authorizations satisfy (A and B
-- here), which somebody has judged beforehand and put into `visible`. The views are for writing: as in tabd, a writer needn't see what it
-- writes, and a view goes to its table with the rights of its owner.
drop table if exists wide, tall, visible cascade;
drop role if exists reader;
create role reader login;
-- Its statements are planned once, and a range in the order of the key, without a sort.
alter role reader set plan_cache_mode = force_generic_plan;
alter role reader set enable_bitmapscan = off;

create table visible (reader name, label bytea, primary key (reader, label));
insert into visible select 'reader', label::bytea from unnest('{A,A&B,A&(B|C),B|D}'::text[]) label;
grant select on visible to reader;
analyze visible;

create unlogged table wide (row bytea, family bytea, qualifier bytea, label bytea, time bigint not null, value bytea not null,
                            primary key (row, family, qualifier, label));
create unlogged table tall (like wide including all);

create policy seen on wide for select to reader using (label in (select label from visible where reader = current_user));
create policy seen on tall for select to reader using (label in (select label from visible where reader = current_user));
alter table wide enable row level security;
alter table tall enable row level security;
grant select on wide, tall to reader;

create view wide_written as select * from wide;
create view tall_written as select * from tall;
grant select, insert, update on wide_written, tall_written to reader;
