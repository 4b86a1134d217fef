-- How long do drives take? From an accepted begin to the accepted end behind it, in seconds.
with events as (
    select
        garage,
        fields ->> 'says' as begins,
        time as since,
        lead(time) over each_garage as until,
        lead(fields ->> 'says') over each_garage as ends
    from sent
    where name = 'event' and accepted and time is not null
    window each_garage as (partition by garage order by message)
)
select
    garage,
    begins,
    count(*) as drives,
    round(percentile_cont(0.5) within group (order by extract(epoch from until - since))::numeric, 1) as median,
    round(max(extract(epoch from until - since)), 1) as longest,
    count(*) filter (where ends = 'ended and not done') as given_up
from events
where begins in ('begin in', 'begin out') and until is not null
group by garage, begins
order by garage, begins;
