;;;; Connections, their numbers and windows. docs/PROTOCOL.md: "Numbers and windows" and on.

(in-package :chaosnet)

(defparameter *retransmit* 500 "Milliseconds after which what is kept is sent again.")
(defparameter *probe* 10000 "Milliseconds of silence after which the peer is probed.")
(defparameter *down* 90000 "Milliseconds of silence after which the peer is given up.")
(defun offset (x y)
  "How far X is past Y, round the circle of 65536 numbers."
  (mod (- x y) 65536))

(defun further (x count)
  "The number that is COUNT past X."
  (mod (+ x count) 65536))

(defun first-number ()
  "Where a direction begins: elsewhere at each start, so that a late copy is told apart."
  (random 65536 (make-random-state t)))

(defstruct item number opcode data)

(defstruct (connection (:conc-name conn-))
  host index
  (state :inactive)                     ; :rfc-sent :rfc-received :open, or how it ended
  (asked nil)                           ; did this end ask for it?
  peer (peer-index 0)
  opening                               ; the number of the request that was taken
  ;; What is sent: numbers of items, and the items past the receipt.
  sent receipted acknowledged window
  (kept '())
  ;; What is received: a ring, whose slot FRONT is for the item after the one last read.
  held (front 0)
  last-read
  (untold 0)                            ; items read since the peer was told
  heard last-sent probed                ; moments
  (user nil)                            ; what the user keeps with it
  (reason ""))                          ; of a CLS, LOS, ANS or FWD

(defun live-p (conn) (member (conn-state conn) '(:rfc-sent :rfc-received :open)))
(defun open-p (conn) (eq (conn-state conn) :open))

(defun send-packet (conn opcode number data)
  "Sends a packet. All but RFC and CLS tell which item the user read last."
  (let ((tells (or (item-opcode-p opcode) (member opcode (list +opn+ +sns+ +sts+)))))
    (when tells (setf (conn-untold conn) 0))
    (transmit (conn-host conn)
              (make-packet :opcode opcode :number number :data data
                           :acknowledgement (if tells (conn-last-read conn) 0)
                           :to (conn-peer conn) :to-index (conn-peer-index conn)
                           :from (host-address (conn-host conn)) :from-index (conn-index conn)))))

(defun status-data (conn)
  "The receipt and the window, each with its low octet first, as an OPN or STS tells them."
  (let ((receipt (further (conn-last-read conn) (unbroken conn)))
        (window (length (conn-held conn))))
    (map '(vector octet) #'identity (list (mod receipt 256) (floor receipt 256) window 0))))

(defun send-status (conn) (send-packet conn +sts+ 0 (status-data conn)))
(defun send-item (conn item)
  (send-packet conn (item-opcode item) (item-number item) (item-data item)))

(defun write-item (conn opcode data)
  "Sends the next item of this direction, and keeps it until a receipt covers it."
  (let ((item (make-item :opcode opcode :data data :number (further (conn-sent conn) 1))))
    (unless (conn-kept conn) (setf (conn-last-sent conn) (moment)))
    (setf (conn-sent conn) (item-number item)
          (conn-kept conn) (append (conn-kept conn) (list item)))
    (send-item conn item)))

(defun outstanding (conn)
  "How many items the peer's user hasn't read, as far as is known here."
  (offset (conn-sent conn) (conn-acknowledged conn)))

(defun may-write-p (conn) (and (open-p conn) (< (outstanding conn) (conn-window conn))))

;;; What the peer tells of the items that it was sent

(defun counts-p (number present sent)
  "Does NUMBER lie between the PRESENT one and the one last SENT? Any other is old or wrong."
  (<= (offset number present) (offset sent present)))

(defun take-receipt (conn number)
  (when (counts-p number (conn-receipted conn) (conn-sent conn))
    (setf (conn-kept conn) (nthcdr (offset number (conn-receipted conn)) (conn-kept conn))
          (conn-receipted conn) number)))

(defun take-acknowledgement (conn number)
  (when (counts-p number (conn-acknowledged conn) (conn-sent conn))
    (setf (conn-acknowledged conn) number)
    (take-receipt conn number)))

(defun status-p (packet) (>= (length (pkt-data packet)) 4))

(defun take-status (conn packet)
  "Takes the acknowledgement, the receipt and the window of an OPN or STS."
  (flet ((value (at)
           (+ (aref (pkt-data packet) at) (* 256 (aref (pkt-data packet) (1+ at))))))
    (take-acknowledgement conn (pkt-acknowledgement packet))
    (take-receipt conn (value 0))
    (setf (conn-window conn) (min (host-window (conn-host conn)) (value 2)))))

;;; What arrives, and is read in order: offsets are counted from 1

(defun slot-at (conn offset) (mod (+ (conn-front conn) (1- offset)) (length (conn-held conn))))
(defun held-at (conn offset) (aref (conn-held conn) (slot-at conn offset)))

(defun unbroken (conn)
  "How many items are held without a gap."
  (loop for offset from 1 to (length (conn-held conn))
        while (held-at conn offset)
        count t))

(defun hold (conn packet)
  "Holds an item; or tells the peer where this end is, if it isn't new or is past the window."
  (let ((offset (offset (pkt-number packet) (conn-last-read conn))))
    (if (and (<= 1 offset (length (conn-held conn))) (not (held-at conn offset)))
        (setf (aref (conn-held conn) (slot-at conn offset)) packet)
        (send-status conn))))

(defun next-item (conn) (held-at conn 1))

(defun read-item (conn)
  "Takes the next item, or nil. Each third of a window that was read is told to the peer."
  (let ((item (next-item conn)))
    (when item
      (setf (aref (conn-held conn) (conn-front conn)) nil
            (conn-front conn) (slot-at conn 2)
            (conn-last-read conn) (further (conn-last-read conn) 1))
      (incf (conn-untold conn))
      (when (and (open-p conn) (>= (* 3 (conn-untold conn)) (length (conn-held conn))))
        (send-status conn)))
    item))

(defun request (host peer contact)
  "Asks the host PEER for a connection to CONTACT."
  (let ((conn (add-connection host peer :rfc-sent)))
    (setf (conn-asked conn) t)
    (write-item conn +rfc+ (octets contact))
    conn))

(defun accept (conn)
  (setf (conn-state conn) :open)
  (write-item conn +opn+ (status-data conn)))

;;; What arrives. What is dropped changes nothing, and all else counts as heard.

(defun end-connection (conn state packet)
  (setf (conn-state conn) state (conn-reason conn) (text (pkt-data packet))))

(defun arrive-asking (conn packet)
  "What arrives at an end that asked and has no answer yet."
  (let ((opcode (pkt-opcode packet)))
    (cond ((= opcode +ans+) (end-connection conn :answered packet))
          ((= opcode +fwd+) (end-connection conn :forwarded packet))
          ((and (= opcode +opn+) (status-p packet))
           (setf (conn-state conn) :open
                 (conn-heard conn) (moment)
                 (conn-peer-index conn) (pkt-from-index packet)
                 (conn-last-read conn) (pkt-number packet))
           (take-status conn packet)
           (send-status conn)))))

(defun arrive-open (conn packet)
  (let ((opcode (pkt-opcode packet))
        (heard t))
    (cond ((item-opcode-p opcode)
           (take-acknowledgement conn (pkt-acknowledgement packet))
           (hold conn packet))
          ((= opcode +sns+)
           (take-acknowledgement conn (pkt-acknowledgement packet))
           (send-status conn))
          ((and (member opcode (list +opn+ +sts+)) (status-p packet))
           (take-status conn packet)
           (when (= opcode +opn+) (send-status conn)))
          ((/= opcode +unc+) (setf heard nil)))
    (when heard (setf (conn-heard conn) (moment)))))

(defun arrive (conn packet)
  "Does what a packet to this connection asks."
  (cond ((not (live-p conn)))
        ((= (pkt-opcode packet) +cls+) (end-connection conn :closed packet))
        ((= (pkt-opcode packet) +los+) (end-connection conn :lost packet))
        ((eq (conn-state conn) :rfc-sent) (arrive-asking conn packet))
        ((open-p conn) (arrive-open conn packet))))

(defun arrive-again (conn packet)
  "The request of this connection came again: where the end is open, its peer missed the OPN."
  (when (and (open-p conn) (= (pkt-number packet) (conn-opening conn)))
    (setf (conn-heard conn) (moment))
    (send-status conn)))

(defun tick (conn)
  "Does the first of these that is due: one timer is for all items that are kept."
  (let ((now (moment)))
    (cond ((not (member (conn-state conn) '(:rfc-sent :open))))
          ((>= (- now (conn-heard conn)) *down*) (setf (conn-state conn) :host-down))
          ((and (conn-kept conn) (>= (- now (conn-last-sent conn)) *retransmit*))
           (setf (conn-last-sent conn) now)
           (dolist (item (conn-kept conn)) (send-item conn item)))
          ((and (open-p conn) (>= (- now (max (conn-heard conn) (conn-probed conn))) *probe*))
           (setf (conn-probed conn) now)
           (send-packet conn +sns+ 0 (make-octets 0))))))
