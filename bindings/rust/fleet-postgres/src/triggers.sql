create or replace function {function}() returns trigger language plpgsql as $$
declare
    own text := coalesce(current_setting('cadwrelch.own', true), '');
    origin text := split_part(own, ' ', 1);
    keys text[];
begin
    if tg_op = 'INSERT' then
        keys := array(select {key}::text from come limit {limit} + 1);
    elsif tg_op = 'DELETE' then
        keys := array(select {key}::text from went limit {limit} + 1);
    elsif tg_op = 'UPDATE' then
        keys := array(select {key}::text from come union select {key}::text from went limit {limit} + 1);
    end if;
    if tg_op = 'TRUNCATE' or cardinality(keys) > {limit} or exists (select from unnest(keys) k where octet_length(k) > 7900) then
        perform pg_notify({channel}, '*');
    else
        -- Only the row that a writer has named is its own: triggers of others may have changed more of them.
        perform pg_notify({channel}, case when own = origin || ' ' || k then own else ' ' || k end) from unnest(keys) k;
    end if;
    return null;
end $$;
create or replace trigger cadwrelch_insert after insert on {table} referencing new table as come
    for each statement execute function {function}();
create or replace trigger cadwrelch_update after update on {table} referencing old table as went new table as come
    for each statement execute function {function}();
create or replace trigger cadwrelch_delete after delete on {table} referencing old table as went
    for each statement execute function {function}();
create or replace trigger cadwrelch_truncate after truncate on {table}
    for each statement execute function {function}();
alter table {table} enable always trigger cadwrelch_insert, enable always trigger cadwrelch_update,
    enable always trigger cadwrelch_delete, enable always trigger cadwrelch_truncate;
