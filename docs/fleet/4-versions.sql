-- How often is what a planner sends rejected, by its version? A message is of the version that the garage had at its time.
select
    version,
    count(*) as sent,
    count(*) filter (where not accepted) as rejected,
    round(1000.0 * count(*) filter (where not accepted) / count(*), 1) as per_thousand,
    string_agg(distinct number::text, ' ' order by number::text) filter (where not accepted) as numbers
from sent
cross join lateral (
    select version from deployed where deployed.garage = sent.garage and since <= time order by since desc limit 1
) as planner
group by version
order by version;
