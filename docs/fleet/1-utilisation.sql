-- How full is each garage, hour by hour? The mean over the hour's seconds, of the 27 cars up to which drive-ins are let begin.
with spans as (
    select garage, cars, time as since, lead(time) over (partition by garage order by message) as until
    from sent
    where time is not null
),
parts as (
    select garage, hour, cars, extract(epoch from least(until, hour + interval '1 hour') - greatest(since, hour)) as seconds
    from spans, generate_series(date_trunc('hour', since), until, interval '1 hour') as hour
    where until > greatest(since, hour)
)
select
    garage,
    to_char(hour at time zone 'UTC', 'HH24:MI') as hour,
    round(sum(cars * seconds) / sum(seconds), 1) as mean,
    max(cars) as most,
    round(100 * sum(cars * seconds) / sum(seconds) / 27) as percent
from parts
group by garage, parts.hour
having sum(seconds) > 60
order by garage, parts.hour;
