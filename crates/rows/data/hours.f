-- The seconds of a day and a half: a sum, two products, and a call.
(fix seconds(hours:int):int. hours * 60 * 60) (24 + 12)
