-- Which garages are nearly full? The cars after each garage's last message, and the drivers who were turned away (33).
select
    garage,
    (array_agg(cars order by message desc))[1] as cars,
    27 - (array_agg(cars order by message desc))[1] as open,
    max(cars) as most,
    count(*) filter (where number = 33) as turned_away
from sent
group by garage
having max(cars) >= 24
order by open, garage;
