-- The lines of explain --json as they are, one row each; which planner a garage had from when on; and the lines as columns.
create table if not exists lines (
    garage text not null,
    line jsonb not null check (line ->> 'format' = 'vargsnida-message-1')
);
create index if not exists lines_of_garage on lines (garage, ((line ->> 'message')::int));

create table if not exists deployed (garage text not null, since timestamptz not null, version text not null, primary key (garage, since));

-- what was sent to the stations, with the station's answer; the time where the log has one
create or replace view sent as
select
    garage,
    (line ->> 'message')::int as message,
    (line ->> 'time')::timestamptz as time,
    line ->> 'name' as name,
    line -> 'fields' as fields,
    (line ->> 'accepted')::boolean as accepted,
    (line -> 'answer' ->> 'number')::int as number,
    line -> 'answer' ->> 'says' as says,
    (line -> 'after' ->> 'cars')::int as cars
from lines
where line ->> 'way' = 'sent';
